//! No name of the crate hides one that every module has.

use rackplan::*;

#[derive(Clone, Copy, Debug, Default, PartialEq, Eq, PartialOrd, Ord, Hash)]
struct Crate {
    grade: u32,
}

#[test]
fn all_names_together_leave_the_traits_of_std() {
    let crates = [Crate { grade: 1 }; 2];
    assert_eq!(crates[0], crates[1]);
    let plan: OwnedPlan = plan_sheet(b"J,1,1,0\nG,0\nT,0,7\n").expect("accepted");
    assert_eq!(plan.copies(), [StageCopy::default()]);
}
