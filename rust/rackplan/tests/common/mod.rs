//! The sheet of case K (SPEC 11), its plan, and sheets that are refused.

// no test needs all of it
#![allow(dead_code)]

use rackplan::{Fault, Sizes};

pub const LISTING: &str =
    "J,2,3,2\nG,0,0\nT,0,1,1\nT,1,2,9\nT,2,9,2\nE,0,1,0,5,5,0\nE,0,2,0,5,5,0\n";
pub const LISTING_SIZES: Sizes = Sizes {
    kinds: 2,
    stages: 3,
    edges: 2,
};
pub const LISTING_PLAN: &str = "P,3,1,1\nC,0,0,0,0,1\nC,0,1,0,0,1\nC,1,0,0,1,3\nC,2,1,0,1,3\n";

/// More of everything than the listing has.
pub const LARGER: &str = "J,4,4,3\nG,9,9,9,9\nT,0,9,9,9,9\nT,1,9,9,9,9\nT,2,9,9,9,9\nT,3,9,9,9,9\n\
    E,0,1,9,9,9,9,9,9,9,9,9,9,9,9,9,9,9,9\nE,0,2,9,9,9,9,9,9,9,9,9,9,9,9,9,9,9,9\n\
    E,0,3,9,9,9,9,9,9,9,9,9,9,9,9,9,9,9,9\n";

/// The listing with other text in the place of some.
pub fn changed(from: &str, to: &str) -> String {
    assert!(LISTING.contains(from));
    LISTING.replace(from, to)
}

/// A sheet for each fault from 2 to 5, and for each that clearing times can have.
pub fn refused_sheets() -> [(String, Fault); 7] {
    [
        ("\n".repeat(65_001), Fault::LongSheet),
        (LISTING[..65].into(), Fault::BadForm { line: 7 }),
        (changed("G,0,0\n", ""), Fault::BadForm { line: 2 }),
        (changed("G,0,0", "G,0"), Fault::BadForm { line: 2 }),
        (
            changed("G,0,0", "G,0,1000001"),
            Fault::OutOfRange { line: 2 },
        ),
        (
            changed("T,2,9", "T,2,1000001"),
            Fault::OutOfRange { line: 5 },
        ),
        (changed("E,0,1", "E,3,1"), Fault::BadStage { line: 6 }),
    ]
}

/// A sheet that repeats an edge, and its fault.
pub fn repeated() -> (String, Fault) {
    (changed("E,0,2", "E,0,1"), Fault::RepeatedEdge { line: 7 })
}
