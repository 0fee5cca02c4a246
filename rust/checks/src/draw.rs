//! Sheets and buffer lengths of all sorts, drawn from a seed.

use rackplan::{PLAN_MAX, SHEET_MAX};
use reference::generator::{
    accepted_sheet, any_case, circular_sheet, damage, draw_sheet, latest_sheet, most_copies_sheet,
    repeated_sheet, small_case, Numbers, Random, Shape, Wish, ANY_BYTES,
};
use reference::{program_output, Sheet};

/// Lengths of the tables that a call takes, the list of copies included.
#[derive(Clone, Copy, Debug, PartialEq, Eq)]
pub enum Lengths {
    Exact,
    /// Each longer, by drawn numbers.
    Longer,
    /// This table is one entry short, the others are exact or longer.
    OneShort(usize),
    /// This table has no entries, the others are exact or longer.
    Empty(usize),
}

impl Lengths {
    /// For a call that takes so many tables. One in five has a short or an
    /// empty one.
    pub fn draw(random: &mut Random, tables: usize) -> Lengths {
        match random.below(10) {
            0 => Lengths::OneShort(random.below(tables)),
            1 => Lengths::Empty(random.below(tables)),
            2..=4 => Lengths::Longer,
            _ => Lengths::Exact,
        }
    }

    /// The numbers of entries, where `exact` are needed.
    pub fn entries<const T: usize>(self, random: &mut Random, exact: [usize; T]) -> [usize; T] {
        let mut entries = exact;
        if self != Lengths::Exact {
            let least = usize::from(self == Lengths::Longer);
            entries = exact.map(|exact| exact + random.between(least, 20));
        }
        match self {
            Lengths::OneShort(table) => entries[table] = exact[table] - 1,
            Lengths::Empty(table) => entries[table] = 0,
            _ => {}
        }
        entries
    }
}

/// Length of the output, by that of the sheet's printed plan, or of the refusal
/// line where it has none.
#[derive(Clone, Copy, Debug, PartialEq, Eq)]
pub enum Output {
    Exact,
    OneShort,
    /// Shorter by a drawn number.
    Short,
    Empty,
    /// Longer by a drawn number.
    Longer,
    /// Long enough for every plan.
    Most,
    /// So many bytes.
    Bytes(usize),
}

/// All but those of a given number of bytes.
pub const OUTPUTS: [Output; 6] = [
    Output::Exact,
    Output::OneShort,
    Output::Short,
    Output::Empty,
    Output::Longer,
    Output::Most,
];

impl Output {
    /// Seven in ten are long enough.
    pub fn draw(random: &mut Random) -> Output {
        match random.below(10) {
            0 => Output::OneShort,
            1 => Output::Short,
            2 => Output::Empty,
            3..=5 => Output::Exact,
            6..=7 => Output::Longer,
            _ => Output::Most,
        }
    }

    /// The number of bytes.
    pub fn bytes(self, random: &mut Random, text: &[u8]) -> usize {
        let printed = || program_output(text).len();
        match self {
            Output::Exact => printed(),
            Output::OneShort => printed() - 1,
            Output::Short => random.below(printed()),
            Output::Empty => 0,
            Output::Longer => printed() + random.between(1, 40),
            Output::Most => PLAN_MAX,
            Output::Bytes(bytes) => bytes,
        }
    }
}

/// 256 stages and as many edges, up to 1024, as have room.
pub fn full_sheet(random: &mut Random, kinds: usize, shape: Shape, numbers: Numbers) -> Sheet {
    let wish = Wish {
        kinds,
        stages: 256,
        edges: 1024,
        shape,
        numbers,
    };
    draw_sheet(random, &wish)
}

/// A sheet of exactly so many bytes, about 65000. With four kinds it has 1024
/// edges and mostly short numbers, with three it has fewer and long numbers.
/// With one or two no sheet is that long.
pub fn long_sheet(random: &mut Random, kinds: usize, bytes: usize) -> Sheet {
    let numbers = if kinds == 4 {
        Numbers::Short
    } else {
        Numbers::Wide
    };
    let mut sheet = full_sheet(random, kinds, Shape::Dense, numbers);
    while sheet.to_text().len() > bytes {
        sheet.edges.pop();
    }
    let mut missing = bytes - sheet.to_text().len();
    // a wait times ten has a digit more
    for wait in sheet.edges.iter_mut().flat_map(|edge| &mut edge.waits) {
        while missing > 0 && (1..=100_000).contains(wait) {
            *wait *= 10;
            missing -= 1;
        }
    }
    assert_eq!(sheet.to_text().len(), bytes, "not enough short waits");
    sheet
}

/// The sheet with the most copies, each of which needs a board of its own: all
/// are done before the first of them is free again.
pub fn most_boards_sheet() -> Sheet {
    let sheet = most_copies_sheet();
    Sheet {
        clearing: vec![1_000_000; sheet.kinds],
        ..sheet
    }
}

/// The sheet with all clearing times 0.
pub fn without_clearing(sheet: &Sheet) -> Sheet {
    Sheet {
        clearing: vec![0; sheet.kinds],
        ..sheet.clone()
    }
}

/// Texts at the limits, made once and used often: as many stages, edges,
/// digits or bytes as can be, good, circular or with repeated edges.
pub struct LargeTexts {
    texts: Vec<Vec<u8>>,
}

impl LargeTexts {
    pub fn new(random: &mut Random) -> LargeTexts {
        let mut sheets = vec![most_copies_sheet(), most_boards_sheet()];
        for bytes in SHEET_MAX - 3..=SHEET_MAX + 1 {
            sheets.push(long_sheet(random, 3, bytes));
            sheets.push(long_sheet(random, 4, bytes));
        }
        for kinds in [3, 3, 4, 4, 4, 4] {
            let long = long_sheet(random, kinds, SHEET_MAX);
            sheets.push(repeated_sheet(random, &long));
            let length = random.between(1, 256);
            sheets.push(circular_sheet(random, &long, length));
            sheets.push(long);
        }
        for kinds in 1..=4 {
            sheets.push(latest_sheet(random, kinds));
            for numbers in [Numbers::Tiny, Numbers::Short, Numbers::Wide] {
                sheets.push(full_sheet(random, kinds, Shape::Dense, numbers));
                sheets.push(full_sheet(random, kinds, Shape::NoEdges, numbers));
            }
        }
        LargeTexts {
            texts: sheets.iter().map(|sheet| sheet.to_text()).collect(),
        }
    }

    pub fn all(&self) -> &[Vec<u8>] {
        &self.texts
    }

    /// A text of any size and sort: mostly small, one in five at the limits, of
    /// which many are damaged or too long.
    pub fn draw_text(&self, random: &mut Random) -> Vec<u8> {
        match random.below(40) {
            0..=18 => any_case(random, 12, ANY_BYTES).text,
            19..=24 => small_case(random, ANY_BYTES).text,
            25..=27 => {
                let text = accepted_sheet(random, 12).to_text();
                leave_range(random, text)
            }
            28..=31 => any_case(random, 60, ANY_BYTES).text,
            32..=34 => random.pick(&self.texts).clone(),
            35..=37 => {
                let text = random.pick(&self.texts);
                damage(random, text, ANY_BYTES)
            }
            _ => self.draw_too_long(random),
        }
    }

    /// A text to be planned: as above, with more sheets that are accepted and
    /// more of many stages.
    pub fn draw_plan_text(&self, random: &mut Random) -> Vec<u8> {
        match random.below(8) {
            0 => any_case(random, 256, ANY_BYTES).text,
            1 | 2 => accepted_sheet(random, 40).to_text(),
            _ => self.draw_text(random),
        }
    }

    /// A text with bytes behind it that make it too long, often just so.
    fn draw_too_long(&self, random: &mut Random) -> Vec<u8> {
        let mut text = random.pick(&self.texts).clone();
        let bytes = SHEET_MAX + random.pick(&[1, 1, 2, 2000]);
        text.resize(bytes.max(text.len()), *random.pick(ANY_BYTES));
        text
    }
}

/// Puts a number that no clearing time, duration or wait can be into a field
/// behind the header: one of the second line, or any that is not the first of its
/// line. The general damage rarely does.
fn leave_range(random: &mut Random, text: Vec<u8>) -> Vec<u8> {
    let mut line_ends = (0..text.len()).filter(|&at| text[at] == b'\n');
    let header = line_ends.next().expect("a sheet has a header");
    let second = line_ends.next().expect("and clearing times");
    let is_comma = |at: &usize| text[*at] == b',';
    let commas: Vec<usize> = if random.one_in(4) {
        (header..second).filter(is_comma).collect()
    } else {
        let inner = (header + 3..text.len()).filter(|&at| text[at - 2] != b'\n');
        inner.filter(is_comma).collect()
    };
    let from = random.pick(&commas) + 1;
    let field_end = |byte: &u8| matches!(byte, b',' | b'\n');
    let length = text[from..].iter().position(field_end);
    let until = from + length.expect("a line has an end");
    let number = *random.pick(&["0", "1000001", "1000010", "2000000", "9999999"]);
    [&text[..from], number.as_bytes(), &text[until..]].concat()
}
