//! HEFT without duplication against our plan: it is a rival worth the name,
//! and never earlier.

use checks::draw::without_clearing;
use checks::graphs::{all_series, Triangle, MOST_ROWS, MOST_TILES};
use checks::heft::{heft, ranks};
use checks::mix::Mix;
use checks::rival::{best_of_single_copies, compare_rival, ours, Comparison, Figures};
use reference::generator::{
    draw_sheet, duplicating_sheet, latest_sheet, long_sheet, most_copies_sheet, Numbers, Random,
    Wish, NUMBERS, SHAPES,
};
use reference::valid::cleared;
use reference::{judge, Edge, PlanCopy, Sheet};

fn sheet(text: &str) -> Sheet {
    judge(text.as_bytes()).expect("the sheet is accepted")
}

fn heft_finish(sheet: &Sheet) -> u64 {
    Figures::of(sheet, &heft(sheet)).finish
}

/// The example of the paper that HEFT comes from (see `checks::heft`): ten
/// tasks on three machines.
const PAPER_DURATIONS: [[u32; 3]; 10] = [
    [14, 16, 9],
    [13, 19, 18],
    [11, 13, 19],
    [13, 8, 17],
    [12, 13, 10],
    [13, 16, 9],
    [7, 15, 11],
    [5, 11, 14],
    [18, 12, 20],
    [21, 7, 16],
];

/// Its edges, with the delay between any two machines. Tasks count from 1.
const PAPER_EDGES: [(usize, usize, u32); 15] = [
    (1, 2, 18),
    (1, 3, 12),
    (1, 4, 9),
    (1, 5, 11),
    (1, 6, 14),
    (2, 8, 19),
    (2, 9, 16),
    (3, 7, 23),
    (4, 8, 27),
    (4, 9, 23),
    (5, 9, 13),
    (6, 8, 15),
    (7, 10, 17),
    (8, 10, 11),
    (9, 10, 13),
];

/// Its ranks.
const PAPER_RANKS: [f64; 10] = [
    108.0, 77.0, 80.0, 80.0, 69.0, 63.333, 42.667, 35.667, 44.333, 14.667,
];

#[test]
fn ranks_are_those_of_the_example_in_its_paper() {
    let edge = |(source, target, delay)| Edge {
        source: source - 1,
        target: target - 1,
        waits: vec![delay; 9],
    };
    let sheet = Sheet {
        kinds: 3,
        clearing: vec![0; 3],
        durations: PAPER_DURATIONS.map(|row| row.to_vec()).to_vec(),
        edges: PAPER_EDGES.map(edge).to_vec(),
    };
    for (rank, expected) in ranks(&sheet).into_iter().zip(PAPER_RANKS) {
        assert!((rank as f64 / 9.0 - expected).abs() < 0.001, "{rank}");
    }
}

/// It has the optimum in L, M, O, T and U. In K and N it is later, since it has
/// one copy of each stage and takes the kind where that ends first. In P it
/// takes kind 0 for stage 0, where kind 1 is as fast.
#[test]
fn cases_of_the_specification() {
    let cases = [
        ("J,1,2,0\nG,0\nT,0,5\nT,1,5\n", 5),           // L
        ("J,1,2,1\nG,0\nT,0,5\nT,1,5\nE,0,1,0\n", 10), // M
        ("J,2,1,0\nG,0,0\nT,0,4,4\n", 4),              // O
        (
            "J,1,2,1\nG,0\nT,0,1000000\nT,1,1000000\nE,0,1,1000000\n",
            3_000_000,
        ), // T
        ("J,2,2,1\nG,0,0\nT,0,1,9\nT,1,9,1\nE,0,1,0,3,7,0\n", 5), // U
    ];
    for (text, finish) in cases {
        let sheet = sheet(text);
        let comparison = compare_rival(&sheet, &heft(&sheet));
        assert_eq!(comparison.rival.finish, finish, "{text}");
        assert_eq!(comparison.ours.finish, finish, "{text}");
    }
    let listing = "J,2,3,2\nG,0,0\nT,0,1,1\nT,1,2,9\nT,2,9,2\nE,0,1,0,5,5,0\nE,0,2,0,5,5,0\n";
    assert_eq!(heft_finish(&sheet(listing)), 8);
    let case_n = "J,2,2,1\nG,0,0\nT,0,1,3\nT,1,9,1\nE,0,1,0,10,10,0\n";
    assert_eq!(heft_finish(&sheet(case_n)), 10);
    let case_p = listing.replacen("0,5,5,0", "0,0,0,0", 1);
    assert_eq!(heft_finish(&sheet(&case_p)), 8);
}

fn draw_any(random: &mut Random, most_stages: usize) -> Sheet {
    let wish = Wish {
        kinds: random.between(1, 4),
        stages: random.between(1, most_stages),
        edges: 1024,
        shape: *random.pick(&SHAPES),
        numbers: *random.pick(&NUMBERS),
    };
    draw_sheet(random, &wish)
}

/// Where waits are the same for all kinds, each stage's earliest end is best
/// for all behind it: HEFT is optimal.
#[test]
fn it_is_optimal_where_waits_do_not_depend_on_kinds() {
    let mut random = Random::new(63);
    for _ in 0..1000 {
        // with more stages, longer waits could make the sheet too long
        let mut sheet = draw_any(&mut random, 30);
        for edge in &mut sheet.edges {
            let wait = edge.waits[0];
            edge.waits.fill(wait);
        }
        let comparison = compare_rival(&sheet, &heft(&sheet));
        assert_eq!(comparison.rival.finish, comparison.ours.finish, "{sheet:?}");
    }
}

#[test]
fn it_is_often_the_best_of_all_plans_with_single_copies() {
    let mut random = Random::new(64);
    let mut mix = Mix::default();
    for _ in 0..3000 {
        let wish = Wish {
            kinds: random.between(2, 3),
            stages: random.between(2, 6),
            edges: 12,
            shape: *random.pick(&SHAPES[1..]),
            numbers: *random.pick(&[Numbers::Tiny, Numbers::Short, Numbers::Wide]),
        };
        let sheet = draw_sheet(&mut random, &wish);
        let best = best_of_single_copies(&sheet);
        let comparison = compare_rival(&sheet, &heft(&sheet));
        let (ours, heft) = (comparison.ours.finish, comparison.rival.finish);
        assert!(ours <= best && best <= heft, "{sheet:?}");
        mix.count_if(best == ours, "single copies suffice");
        mix.count_if(best == ours && heft == best, "and HEFT has the optimum");
        mix.count_if(best > ours, "a second copy gains");
        mix.count_if(
            best > ours && heft == best,
            "and HEFT is the best without it",
        );
    }
    mix.assert_least(&[
        ("single copies suffice", 2_000),
        ("and HEFT has the optimum", 1_000),
        ("a second copy gains", 100),
        ("and HEFT is the best without it", 50),
    ]);
}

/// How often each of these has to occur.
const LEAST: [(&str, usize); 8] = [
    ("HEFT as early", 1_000),
    ("HEFT later", 1_000),
    ("HEFT later by half or more", 100),
    ("we have more copies", 500),
    ("HEFT has more boards", 50),
    ("HEFT has fewer boards", 500),
    ("clearing takes HEFT more boards", 1_000),
    ("clearing takes us more boards", 1_000),
];

fn count_case(mix: &mut Mix, sheet: &Sheet) {
    let comparison = compare_rival(sheet, &heft(sheet));
    let (ours, rival) = (comparison.ours, comparison.rival);
    assert_eq!(rival.copies, sheet.stages());
    mix.count_if(rival.finish == ours.finish, "HEFT as early");
    mix.count_if(rival.finish > ours.finish, "HEFT later");
    let much = comparison.ratio() >= 1.5;
    mix.count_if(much, "HEFT later by half or more");
    mix.count_if(ours.copies > rival.copies, "we have more copies");
    let boards = [ours, rival].map(|figures| figures.boards.iter().sum::<usize>());
    mix.count_if(boards[1] > boards[0], "HEFT has more boards");
    mix.count_if(boards[1] < boards[0], "HEFT has fewer boards");
    count_clearing(mix, sheet, comparison);
}

/// Without clearing times both plans are as early, with as many copies.
fn count_clearing(mix: &mut Mix, sheet: &Sheet, with: Comparison) {
    let sheet = without_clearing(sheet);
    let without = compare_rival(&sheet, &heft(&sheet));
    for (with, without, who) in [
        (with.rival, without.rival, "HEFT"),
        (with.ours, without.ours, "us"),
    ] {
        assert_eq!((with.finish, with.copies), (without.finish, without.copies));
        let more = with.boards != without.boards;
        mix.count_if(more, format!("clearing takes {who} more boards"));
    }
}

/// Every shape, number of kinds and sort of numbers with at most so many
/// stages.
fn draw_each(random: &mut Random, most_stages: usize) -> Vec<Sheet> {
    let mut sheets = Vec::new();
    for shape in SHAPES {
        for kinds in 1..=4 {
            for numbers in NUMBERS {
                let wish = Wish {
                    kinds,
                    stages: random.between(1, most_stages),
                    edges: 1024,
                    shape,
                    numbers,
                };
                sheets.push(draw_sheet(random, &wish));
            }
        }
    }
    sheets
}

#[test]
fn it_is_valid_and_never_earlier_on_drawn_sheets() {
    let mut random = Random::new(65);
    let mut mix = Mix::default();
    for most_stages in [3, 6, 6, 12, 12, 25, 25, 50, 100, 256] {
        for _ in 0..3 {
            for sheet in draw_each(&mut random, most_stages) {
                count_case(&mut mix, &sheet);
            }
        }
    }
    for kinds in 1..=4 {
        for _ in 0..100 {
            let stages = random.between(3, 60);
            let sheet = duplicating_sheet(&mut random, kinds, stages);
            count_case(&mut mix, &sheet);
        }
        count_case(&mut mix, &latest_sheet(&mut random, kinds));
    }
    count_case(&mut mix, &most_copies_sheet());
    count_case(&mut mix, &long_sheet(&mut random, 65_000));
    mix.assert_least(&LEAST);
}

#[test]
fn it_is_never_earlier_on_the_graphs_of_spaghetti() {
    let mut later = 0;
    let mut sheets = 0;
    for series in all_series() {
        for (size, sheet) in &series.sheets {
            assert_eq!(judge(&sheet.to_text()).as_ref(), Ok(sheet), "{size}");
            let comparison = compare_rival(sheet, &heft(sheet));
            assert!(comparison.ratio() >= 1.0, "{}, {size}", series.title);
            later += usize::from(comparison.rival.finish > comparison.ours.finish);
            sheets += 1;
        }
    }
    assert_eq!(sheets, 5 * (MOST_TILES - 1) + 2 * (MOST_ROWS - 1));
    assert!(later >= sheets / 2, "{later} of {sheets}");
}

/// As in figure 3(b) of SPAGHETtI: without such pairs both finish together, with
/// one HEFT is later, as it has no copies to spare.
#[test]
fn on_triangles_copies_of_predecessors_make_the_difference() {
    let mut random = Random::new(67);
    for _ in 0..50 {
        let triangle = Triangle::draw(&mut random, 2, 12);
        let first_pair = triangle.pairs[0].row;
        let above = triangle.top(first_pair).sheet(2);
        assert_eq!(compare_rival(&above, &heft(&above)).ratio(), 1.0);
        let with_pair = triangle.top(first_pair + 1).sheet(2);
        let comparison = compare_rival(&with_pair, &heft(&with_pair));
        assert!(comparison.ratio() > 1.0);
        assert!(comparison.ours.copies > with_pair.stages());
    }
}

/// Our own plan passes the comparison, with every copy at its table entry.
#[test]
fn our_plan_is_as_early_as_ours() {
    let mut random = Random::new(68);
    for _ in 0..200 {
        let sheet = draw_any(&mut random, 30);
        let our_plan = ours(&sheet);
        assert_eq!(compare_rival(&sheet, &our_plan.copies).ratio(), 1.0);
        for copy in &our_plan.copies {
            assert_eq!(copy.start, our_plan.start(copy));
        }
    }
}

/// When each copy's board is taken, and when it is free again.
fn taken(sheet: &Sheet, copy: &PlanCopy) -> [u128; 2] {
    [copy.start.into(), cleared(sheet, copy)]
}

/// Copies that all keep their boards at one time need a board each, whoever
/// assigns them (SPEC 10.3.5): of each kind there are as many at the start of
/// some copy as our plan has boards.
#[test]
fn our_boards_are_as_few_as_any_assignment_has() {
    let mut random = Random::new(69);
    let mut mix = Mix::default();
    for _ in 0..1000 {
        let sheet = draw_any(&mut random, 40);
        let our_plan = ours(&sheet);
        let boards = our_plan.plan.boards();
        for (kind, &boards) in boards[..sheet.kinds].iter().enumerate() {
            let of_kind = our_plan
                .copies
                .iter()
                .filter(|copy| copy.kind == kind as u64);
            let times: Vec<[u128; 2]> = of_kind.map(|copy| taken(&sheet, copy)).collect();
            let at_once = |time: u128| {
                let taken = times
                    .iter()
                    .filter(|[from, until]| (*from..*until).contains(&time));
                taken.count()
            };
            let most = times.iter().map(|&[from, _]| at_once(from)).max();
            assert_eq!(boards, most.unwrap_or(0), "kind {kind} of {sheet:?}");
            let shared = boards > 1 && boards < times.len();
            mix.count_if(shared, "boards shared");
            let clears = sheet.clearing[kind] > 0;
            mix.count_if(shared && clears, "boards shared that clear");
        }
    }
    mix.assert_least(&[("boards shared", 700), ("boards shared that clear", 500)]);
}

/// The comparison refuses what is not valid.
#[test]
#[should_panic(expected = "NotServed")]
fn a_rival_that_starts_too_early_is_refused() {
    let sheet = sheet("J,1,2,1\nG,0\nT,0,5\nT,1,5\nE,0,1,1\n");
    let mut plan: Vec<PlanCopy> = heft(&sheet);
    plan[1].start -= 1;
    compare_rival(&sheet, &plan);
}

/// Case M with a clearing time of 1 (SPEC 11.12), on one board.
#[test]
#[should_panic(expected = "SameBoard")]
fn a_rival_whose_board_has_not_cleared_is_refused() {
    let sheet = sheet("J,1,2,1\nG,1\nT,0,5\nT,1,5\nE,0,1,0\n");
    let mut plan: Vec<PlanCopy> = heft(&sheet);
    assert_eq!((plan[0].board, plan[1].board), (0, 1));
    plan[1].board = 0;
    compare_rival(&sheet, &plan);
}
