//! A planner used again and again, and the plans that it gives.

mod common;

use std::collections::HashSet;
use std::thread;

use common::{changed, refused_sheets, repeated, LARGER, LISTING, LISTING_PLAN, LISTING_SIZES};
use rackplan::{plan_sheet, Fault, OwnedPlan, Plan, Planner, StageCopy, Tables};

fn copy(stage: u32, kind: u32, board: u32, start: u32) -> StageCopy {
    StageCopy {
        stage,
        kind,
        board,
        start,
    }
}

/// A planner that has planned a larger sheet before.
fn used_planner() -> Planner {
    let mut planner = Planner::new();
    let plan = planner.plan(LARGER.as_bytes()).expect("accepted");
    assert_eq!(plan.start(3, 3), Some(18));
    planner
}

fn planned(sheet: &str) -> OwnedPlan {
    plan_sheet(sheet.as_bytes()).expect("accepted")
}

/// The plan of the listing, however it was made.
fn assert_listing(plan: &Plan) {
    let sizes = (plan.kinds(), plan.stages(), plan.edges());
    assert_eq!((plan.sizes(), sizes), (LISTING_SIZES, (2, 3, 2)));
    assert_eq!((plan.finish(), plan.boards()), (3, [1, 1, 0, 0]));
    let copies = [
        copy(0, 0, 0, 0),
        copy(0, 1, 0, 0),
        copy(1, 0, 0, 1),
        copy(2, 1, 0, 1),
    ];
    assert_eq!(plan.copies(), copies);
    let with_ends = copies.into_iter().zip([1, 1, 3, 3]);
    assert!(plan.copies_with_ends().eq(with_ends));
    let starts = [[0, 0], [1, 1], [1, 1]];
    for (i, h) in (0..5).flat_map(|i| (0..5).map(move |h| (i, h))) {
        let expected = starts.get(i).and_then(|row| row.get(h)).copied();
        assert_eq!(plan.start(i, h), expected, "stage {i} on kind {h}");
    }
    assert_eq!(plan.start(usize::MAX, usize::MAX), None);
    assert_eq!(
        (plan.text(), plan.to_string().as_str()),
        (LISTING_PLAN, LISTING_PLAN)
    );
}

#[test]
fn a_planner_gives_all_of_the_plan_and_nothing_of_an_earlier_one() {
    for mut planner in [Planner::new(), Planner::default(), used_planner()] {
        assert_listing(&planner.plan(LISTING.as_bytes()).expect("accepted"));
    }
}

#[test]
fn an_owned_plan_has_all_of_it_too() {
    let mut planner = used_planner();
    let owned = planner
        .plan(LISTING.as_bytes())
        .expect("accepted")
        .into_owned();
    // it is parted from the planner
    planner.plan(LARGER.as_bytes()).expect("accepted");
    drop(planner);
    assert_listing(&owned);
    assert_listing(&planned(LISTING));
    let elsewhere = thread::spawn(move || assert_listing(&owned));
    elsewhere.join().expect("it is the same plan there");
}

#[test]
fn all_types_may_be_sent_and_shared() {
    fn assert_both<T: Send + Sync + Clone + std::fmt::Debug>() {}
    assert_both::<OwnedPlan>();
    assert_both::<Plan<'_>>();
    assert_both::<Planner>();
    assert_both::<Tables>();
}

#[test]
fn a_planner_is_used_again() {
    let mut planner = Planner::new();
    let longer = planner.plan(LISTING.as_bytes()).expect("accepted");
    assert_eq!(longer.copies().len(), 4);
    let shorter = planner.plan(b"J,1,1,0\nG,0\nT,0,7\n").expect("accepted");
    assert_eq!(shorter.text(), "P,7,1\nC,0,0,0,0,7\n");
    assert_eq!(shorter.copies(), [copy(0, 0, 0, 0)]);
    assert_eq!(shorter.boards(), [1, 0, 0, 0]);
    let empty = planner.plan(b"").unwrap_err();
    assert_eq!(empty, Fault::BadForm { line: 1 });
    assert_listing(&planner.plan(LISTING.as_bytes()).expect("accepted"));
}

#[test]
fn plans_are_equal_by_what_their_sheets_use() {
    let fresh = planned(LISTING);
    let mut planner = used_planner();
    let used = planner.plan(LISTING.as_bytes()).expect("accepted");
    assert_eq!(used, fresh);
    assert_eq!(format!("{used:?}"), format!("{fresh:?}"));
    let plans = [fresh.clone(), used.into_owned(), fresh];
    assert_eq!(HashSet::from(plans).len(), 1);
}

#[test]
fn plans_differ_in_text_starts_or_sizes() {
    let [chain, later, more] = [
        "J,2,3,2\nG,0,0\nT,0,1,9\nT,1,1,9\nT,2,1,9\nE,0,1,0,8,8,0\nE,1,2,0,8,8,0\n",
        // stage 1 starts later on kind 1, where it has no copy
        "J,2,3,2\nG,0,0\nT,0,1,9\nT,1,1,9\nT,2,1,9\nE,0,1,0,9,8,9\nE,1,2,0,8,8,0\n",
        // an edge that no start depends on
        "J,2,3,3\nG,0,0\nT,0,1,9\nT,1,1,9\nT,2,1,9\nE,0,1,0,8,8,0\nE,1,2,0,8,8,0\nE,0,2,0,0,0,0\n",
    ]
    .map(planned);
    assert_eq!((chain.text(), chain.text()), (later.text(), more.text()));
    assert_eq!((chain.start(1, 1), later.start(1, 1)), (Some(9), Some(10)));
    assert_eq!(chain.start(2, 1), more.start(2, 1));
    assert_eq!(
        HashSet::from([chain, later, more, planned(LISTING)]).len(),
        4
    );
}

#[test]
fn only_copies_of_the_plan_have_an_end() {
    let plan = planned(LISTING);
    for (copy, end) in plan.copies_with_ends() {
        assert_eq!(plan.end(copy), Some(end));
    }
    let made_up = [
        copy(1, 0, 1, 1),
        copy(1, 0, 0, 0),
        copy(1, 0, 0, u32::MAX),
        copy(1, 1, 0, 1),
        copy(3, 0, 0, 1),
        copy(0, 2, 0, 0),
        copy(256, 4, 0, 0),
        copy(u32::MAX, u32::MAX, u32::MAX, u32::MAX),
        StageCopy {
            kind: u32::MAX,
            ..StageCopy::default()
        },
    ];
    for copy in made_up {
        assert_eq!(plan.end(copy), None, "{copy:?}");
    }
}

#[test]
fn a_planner_has_the_tables_that_the_call_left() {
    let mut held = Tables::new();
    let mut planner = Planner::new();
    assert_eq!(*planner.tables(), held);
    let circular = (changed("E,0,2", "E,1,0"), Fault::Circular);
    for (sheet, fault) in [repeated(), circular] {
        assert_eq!(planner.plan(sheet.as_bytes()).unwrap_err(), fault);
        // only an edge repeated is refused here too
        let _ = held.read(sheet.as_bytes());
        assert_eq!(planner.tables().sizes(), Some(LISTING_SIZES));
        assert_eq!(*planner.tables(), held);
        for (sheet, fault) in refused_sheets() {
            assert_eq!(planner.plan(sheet.as_bytes()).unwrap_err(), fault);
            assert_eq!(*planner.tables(), held);
        }
    }
    planner.plan(LARGER.as_bytes()).expect("accepted");
    held.read(LARGER.as_bytes()).expect("accepted");
    assert_eq!(*planner.tables(), held);
}

#[test]
fn planning_and_reading_fit_on_a_small_stack() {
    let thread = thread::Builder::new().stack_size(256 * 1024);
    let handle = thread.spawn(|| (planned(LARGER), Tables::new().read(LARGER.as_bytes())));
    let (plan, sizes) = handle.expect("a thread").join().expect("it fits");
    assert_eq!(sizes, Ok(plan.sizes()));
}

/// Cases K to U (SPEC 11).
#[test]
fn the_cases() {
    let only = changed("E,0,1,0,5,5,0", "E,0,1,0,0,0,0");
    let planned = [
        (LISTING, LISTING_PLAN),
        (
            "J,1,2,0\nG,0\nT,0,5\nT,1,5\n",
            "P,5,2\nC,0,0,0,0,5\nC,1,0,1,0,5\n",
        ),
        (
            "J,1,2,1\nG,0\nT,0,5\nT,1,5\nE,0,1,0\n",
            "P,10,1\nC,0,0,0,0,5\nC,1,0,0,5,10\n",
        ),
        (
            "J,2,2,1\nG,0,0\nT,0,1,3\nT,1,9,1\nE,0,1,0,10,10,0\n",
            "P,4,0,1\nC,0,1,0,0,3\nC,1,1,0,3,4\n",
        ),
        ("J,2,1,0\nG,0,0\nT,0,4,4\n", "P,4,1,0\nC,0,0,0,0,4\n"),
        (&only, "P,3,1,1\nC,0,1,0,0,1\nC,1,0,0,1,3\nC,2,1,0,1,3\n"),
        (
            "J,1,2,1\nG,0\nT,0,1000000\nT,1,1000000\nE,0,1,1000000\n",
            "P,3000000,1\nC,0,0,0,0,1000000\nC,1,0,0,2000000,3000000\n",
        ),
        (
            "J,2,2,1\nG,0,0\nT,0,1,9\nT,1,9,1\nE,0,1,0,3,7,0\n",
            "P,5,1,1\nC,0,0,0,0,1\nC,1,1,0,4,5\n",
        ),
    ];
    let refused = [
        (
            "J,1,2,2\nG,0\nT,0,5\nT,1,5\nE,0,1,0\nE,1,0,0\n",
            Fault::Circular,
        ),
        ("J,1,1,1\nG,0\nT,0,5\nE,0,0,0\n", Fault::Circular),
        (
            "J,1,1,2\nG,0\nT,0,5\nE,0,0,0\nE,0,0,0\n",
            Fault::RepeatedEdge { line: 5 },
        ),
        ("J,1,1,0\nG,0\nT,0,0\n", Fault::OutOfRange { line: 3 }),
        ("J,1,1,0\nG,0\nT,0,1000001\n", Fault::OutOfRange { line: 3 }),
    ];
    let mut planner = Planner::new();
    for (sheet, text) in planned {
        let plan = planner.plan(sheet.as_bytes()).expect("accepted");
        assert_eq!(plan.text(), text);
    }
    for (sheet, fault) in refused {
        assert_eq!(planner.plan(sheet.as_bytes()).unwrap_err(), fault);
    }
}

/// SPEC 11.12 to 11.15.
#[test]
fn the_cases_with_clearing_times() {
    let planned = [
        (
            "J,1,2,1\nG,1\nT,0,5\nT,1,5\nE,0,1,0\n",
            "P,10,2\nC,0,0,0,0,5\nC,1,0,1,5,10\n",
        ),
        (
            "J,1,2,1\nG,1\nT,0,5\nT,1,5\nE,0,1,1\n",
            "P,11,1\nC,0,0,0,0,5\nC,1,0,0,6,11\n",
        ),
        (
            "J,2,4,2\nG,1,0\nT,0,1,9\nT,1,1,9\nT,2,9,1\nT,3,9,1\nE,0,1,0,9,9,0\nE,2,3,0,9,9,0\n",
            "P,2,2,1\nC,0,0,0,0,1\nC,2,1,0,0,1\nC,1,0,1,1,2\nC,3,1,0,1,2\n",
        ),
    ];
    let refused = [
        ("J,1,1,0\nT,0,5\n", Fault::BadForm { line: 2 }),
        ("J,2,1,0\nG,0\nT,0,5,5\n", Fault::BadForm { line: 2 }),
        (
            "J,2,1,0\nG,0,1000001\nT,0,5,5\n",
            Fault::OutOfRange { line: 2 },
        ),
    ];
    for (sheet, text) in planned {
        assert_eq!(plan_sheet(sheet.as_bytes()).expect("accepted").text(), text);
    }
    for (sheet, fault) in refused {
        assert_eq!(plan_sheet(sheet.as_bytes()).unwrap_err(), fault);
    }
}

/// A plan has no clearing times, only the boards that they lead to.
#[test]
fn plans_are_equal_where_clearing_times_lead_to_the_same_boards() {
    let [at_once, just, longer, longest] = [0, 1, 2, 1_000_000]
        .map(|time| planned(&format!("J,1,2,1\nG,{time}\nT,0,5\nT,1,5\nE,0,1,1\n")));
    assert_eq!(
        (at_once.boards(), longer.boards()),
        ([1, 0, 0, 0], [2, 0, 0, 0])
    );
    assert_eq!(at_once, just);
    assert_eq!(longer, longest);
    assert_ne!(just, longer);
}
