//! The printed plan and the refusal line (SPEC 6).

use crate::boards::{make_plan, Plan};
use crate::judge::{judge, Fault};
use crate::sheet::Sheet;

/// The printed plan: the line `P,finish,b..`, then a line
/// `C,stage,kind,board,start,end` for each copy.
pub fn plan_text(sheet: &Sheet, plan: &Plan) -> Vec<u8> {
    let mut text = format!("P,{}", plan.finish);
    for count in &plan.board_counts[..sheet.kinds] {
        text.push_str(&format!(",{count}"));
    }
    text.push('\n');
    for copy in &plan.copies {
        let (stage, kind, board, start) = (copy.stage, copy.kind, copy.board, copy.start);
        let end = start + sheet.durations[stage as usize][kind as usize];
        text.push_str(&format!("C,{stage},{kind},{board},{start},{end}\n"));
    }
    text.into_bytes()
}

/// The line `R,number,line`.
pub fn refusal_text(fault: Fault) -> Vec<u8> {
    format!("R,{},{}\n", fault.number, fault.line).into_bytes()
}

/// What the program prints for these bytes on its standard input.
pub fn program_output(bytes: &[u8]) -> Vec<u8> {
    let sheet = match judge(bytes) {
        Ok(sheet) => sheet,
        Err(fault) => return refusal_text(fault),
    };
    let plan = make_plan(&sheet).expect("the sheet was judged not circular");
    plan_text(&sheet, &plan)
}
