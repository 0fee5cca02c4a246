//! Our plan beside a rival's: any valid plan (SPEC 7).

use rackplan::{plan_sheet, OwnedPlan, StageCopy, KINDS_MAX};
use reference::schedule::topological_order;
use reference::{boards_used, last_end, why_invalid, PlanCopy, Sheet};

/// Our plan, with its copies as those of any plan.
pub struct Ours {
    pub plan: OwnedPlan,
    pub copies: Vec<PlanCopy>,
}

impl Ours {
    /// The table's entry for a copy of any valid plan.
    pub fn start(&self, copy: &PlanCopy) -> u64 {
        let start = self.plan.start(copy.stage as usize, copy.kind as usize);
        start.expect("the sheet has this stage and kind").into()
    }
}

/// Our plan of an accepted sheet: the library's.
pub fn ours(sheet: &Sheet) -> Ours {
    let plan = plan_sheet(&sheet.to_text()).expect("the sheet is accepted");
    let copies = plan.copies().iter().map(plan_copy).collect();
    Ours { plan, copies }
}

fn plan_copy(copy: &StageCopy) -> PlanCopy {
    PlanCopy {
        stage: copy.stage.into(),
        kind: copy.kind.into(),
        board: copy.board.into(),
        start: copy.start.into(),
    }
}

/// What two plans are compared by.
#[derive(Clone, Copy, Debug, PartialEq, Eq)]
pub struct Figures {
    /// The end of the last copy (makespan).
    pub finish: u64,
    pub copies: usize,
    /// Of each kind.
    pub boards: [usize; KINDS_MAX],
}

impl Figures {
    /// # Panics
    ///
    /// If the plan is not valid.
    pub fn of(sheet: &Sheet, plan: &[PlanCopy]) -> Figures {
        if let Some(reason) = why_invalid(sheet, plan) {
            panic!("{reason:?}: {plan:?} of {sheet:?}");
        }
        let finish = last_end(sheet, plan).expect("each stage has a copy");
        Figures {
            finish: u64::try_from(finish).expect("its starts are far below the limit"),
            copies: plan.len(),
            boards: std::array::from_fn(|kind| boards_used(plan, kind as u64)),
        }
    }
}

/// Our figures and a rival's on the same sheet.
#[derive(Clone, Copy, Debug)]
pub struct Comparison {
    pub ours: Figures,
    pub rival: Figures,
}

impl Comparison {
    /// The rival's finish over ours.
    pub fn ratio(&self) -> f64 {
        self.rival.finish as f64 / self.ours.finish as f64
    }
}

/// Compares a rival's plan with ours.
///
/// # Panics
///
/// If one of the two is not valid, if ours is not as its totals say, or if the
/// rival is earlier: if it ends before our finish or starts a copy before our
/// table's entry for its stage and kind.
pub fn compare_rival(sheet: &Sheet, plan: &[PlanCopy]) -> Comparison {
    let our_plan = ours(sheet);
    let ours = Figures::of(sheet, &our_plan.copies);
    let rival = Figures::of(sheet, plan);
    assert_eq!(ours.finish, u64::from(our_plan.plan.finish()), "{sheet:?}");
    assert_eq!(ours.boards, our_plan.plan.boards(), "{sheet:?}");
    for copy in plan {
        assert!(copy.start >= our_plan.start(copy), "{copy:?} in {sheet:?}");
    }
    assert!(rival.finish >= ours.finish, "{plan:?} of {sheet:?}");
    Comparison { ours, rival }
}

/// The earliest finish of all plans with one copy a stage: all choices of kinds
/// are tried, each copy as early as its inputs allow. For small sheets.
pub fn best_of_single_copies(sheet: &Sheet) -> u64 {
    let order = topological_order(sheet).expect("not circular");
    let choices = sheet.kinds.pow(sheet.stages() as u32);
    let finish_of = |choice: usize| {
        let kind_of = |stage: usize| choice / sheet.kinds.pow(stage as u32) % sheet.kinds;
        let mut ends = vec![0; sheet.stages()];
        for &stage in &order {
            let kind = kind_of(stage);
            let arrivals = sheet.edges_into(stage).map(|edge| {
                ends[edge.source] + u64::from(sheet.wait(edge, kind_of(edge.source), kind))
            });
            let start = arrivals.max().unwrap_or(0);
            ends[stage] = start + u64::from(sheet.durations[stage][kind]);
        }
        ends.into_iter().max().expect("N is at least 1")
    };
    (0..choices).map(finish_of).min().expect("K is at least 1")
}
