//! Why a sheet, or a buffer, is refused.

use std::error::Error;
use std::fmt;

use crate::SHEET_MAX;

/// Why a call was refused (SPEC 8.3). Later calls may give further faults.
///
/// Up to [`BadStage`](Fault::BadStage) a fault changes nothing.
/// [`RepeatedEdge`](Fault::RepeatedEdge) and [`Circular`](Fault::Circular) leave
/// the sheet in durations, ends and waits, and all else as it was.
#[derive(Clone, Copy, Debug, PartialEq, Eq, Hash)]
#[non_exhaustive]
pub enum Fault {
    /// A table, or the list of copies, is shorter than the call needs.
    ShortTable,
    /// The sheet has more than [`SHEET_MAX`] bytes.
    LongSheet,
    /// A line is missing, is one too many or has another form.
    BadForm {
        /// That line, from 1.
        line: u32,
    },
    /// A size in the first line (K, N or M), a clearing time, a duration or a
    /// wait is too small or too large.
    OutOfRange {
        /// That line, from 1.
        line: u32,
    },
    /// A `T` line's stage is not the next one, or a stage of an `E` line is not
    /// below N.
    BadStage {
        /// That line, from 1.
        line: u32,
    },
    /// An edge has both stages, in the same order, of an earlier one.
    RepeatedEdge {
        /// The first line with such an edge, from 1.
        line: u32,
    },
    /// The edges contain a closed path, which may be one edge from a stage to
    /// itself. [`read`](crate::read) does not look for it.
    Circular,
    /// The output has no room for the printed plan, and is as it was. All other
    /// buffers are filled as on success.
    ShortOutput,
}

impl Fault {
    /// The fault with this number and line, as a call returned them.
    pub(crate) fn from_parts(number: u32, line: u32) -> Fault {
        match number {
            1 => Fault::ShortTable,
            2 => Fault::LongSheet,
            3 => Fault::BadForm { line },
            4 => Fault::OutOfRange { line },
            5 => Fault::BadStage { line },
            6 => Fault::RepeatedEdge { line },
            7 => Fault::Circular,
            8 => Fault::ShortOutput,
            _ => unreachable!("the library has no fault {number}"),
        }
    }

    /// Whether durations, ends and waits have the sheet after this fault.
    pub(crate) fn leaves_sheet(self) -> bool {
        match self {
            Fault::RepeatedEdge { .. } | Fault::Circular | Fault::ShortOutput => true,
            Fault::ShortTable
            | Fault::LongSheet
            | Fault::BadForm { .. }
            | Fault::OutOfRange { .. }
            | Fault::BadStage { .. } => false,
        }
    }

    /// The number of the fault, 1 to 8, as the program prints it and the C
    /// functions return it.
    #[must_use]
    pub fn number(self) -> u32 {
        match self {
            Fault::ShortTable => 1,
            Fault::LongSheet => 2,
            Fault::BadForm { .. } => 3,
            Fault::OutOfRange { .. } => 4,
            Fault::BadStage { .. } => 5,
            Fault::RepeatedEdge { .. } => 6,
            Fault::Circular => 7,
            Fault::ShortOutput => 8,
        }
    }

    /// The line of the sheet, from 1, or `None` where the fault has no line.
    #[must_use]
    pub fn line(self) -> Option<u32> {
        match self {
            Fault::ShortTable | Fault::LongSheet | Fault::Circular | Fault::ShortOutput => None,
            Fault::BadForm { line }
            | Fault::OutOfRange { line }
            | Fault::BadStage { line }
            | Fault::RepeatedEdge { line } => Some(line),
        }
    }
}

impl fmt::Display for Fault {
    fn fmt(&self, f: &mut fmt::Formatter) -> fmt::Result {
        match self {
            Fault::ShortTable => {
                write!(f, "a table or the list is shorter than the call needs")
            }
            Fault::LongSheet => write!(f, "the sheet has more than {SHEET_MAX} bytes"),
            Fault::BadForm { line } => {
                write!(f, "line {line} is missing, one too many or of another form")
            }
            Fault::OutOfRange { line } => {
                write!(f, "line {line} has a number outside its range")
            }
            Fault::BadStage { line } => {
                write!(
                    f,
                    "line {line} has a stage that is not the next or not below N"
                )
            }
            Fault::RepeatedEdge { line } => write!(f, "line {line} repeats an earlier edge"),
            Fault::Circular => write!(f, "the edges contain a closed path"),
            Fault::ShortOutput => write!(f, "the output has no room for the printed plan"),
        }
    }
}

impl Error for Fault {}

#[cfg(test)]
mod tests {
    use super::*;

    /// Every fault with its number, its line and its text.
    const FAULTS: [(Fault, u32, Option<u32>, &str); 8] = [
        (
            Fault::ShortTable,
            1,
            None,
            "a table or the list is shorter than the call needs",
        ),
        (
            Fault::LongSheet,
            2,
            None,
            "the sheet has more than 65000 bytes",
        ),
        (
            Fault::BadForm { line: 7 },
            3,
            Some(7),
            "line 7 is missing, one too many or of another form",
        ),
        (
            Fault::OutOfRange { line: 1 },
            4,
            Some(1),
            "line 1 has a number outside its range",
        ),
        (
            Fault::BadStage { line: 259 },
            5,
            Some(259),
            "line 259 has a stage that is not the next or not below N",
        ),
        (
            Fault::RepeatedEdge { line: 1282 },
            6,
            Some(1282),
            "line 1282 repeats an earlier edge",
        ),
        (Fault::Circular, 7, None, "the edges contain a closed path"),
        (
            Fault::ShortOutput,
            8,
            None,
            "the output has no room for the printed plan",
        ),
    ];

    #[test]
    fn number_line_and_text() {
        for (fault, number, line, text) in FAULTS {
            assert_eq!(fault.number(), number);
            assert_eq!(fault.line(), line);
            assert_eq!(fault.to_string(), text);
        }
    }

    #[test]
    fn from_parts_and_back() {
        for (fault, number, line, _) in FAULTS {
            assert_eq!(Fault::from_parts(number, line.unwrap_or(0)), fault);
        }
    }

    #[test]
    #[should_panic(expected = "the library has no fault 9")]
    fn a_number_that_no_call_gives_is_not_passed_on() {
        Fault::from_parts(9, 0);
    }

    #[test]
    fn faults_from_6_on_leave_the_sheet() {
        for (fault, number, _, _) in FAULTS {
            assert_eq!(fault.leaves_sheet(), number >= 6, "{fault}");
        }
    }

    #[test]
    fn a_fault_is_an_error() {
        let error: Box<dyn Error + Send + Sync> = Box::new(Fault::LongSheet);
        assert!(error.source().is_none());
    }
}
