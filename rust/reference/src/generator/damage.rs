//! Changes to a text that mostly make it a sheet to be refused.

use super::random::Random;

/// Bytes for damage that are printable ASCII or byte 10.
pub const PRINTABLE_BYTES: &[u8] = b"0123456789,,,JGTEPC \n\n-+.;xj\"\\~";

/// Bytes for damage of all sorts: also carriage return, tab, 0 and bytes that
/// are not ASCII.
pub const ANY_BYTES: &[u8] = b"0123456789,,,JGTEPC \n\n-+.;xj\"\\~\r\t\0\x7f\x80\xff";

/// Numbers at and around every limit of SPEC 1, those outside every range more
/// than once, so that they are drawn more often.
pub const BOUNDARY_NUMBERS: &[&str] = &[
    "0", "0", "0", "1", "2", "3", "4", "5", "9", "10", "255", "256", "257", "1023", "1024", "1025",
    "65535", "65536", "999999", "1000000", "1000001", "1000001", "1000001", "9999999", "9999999",
];

/// Fields that are no numbers, so that their line is of another form.
pub const NOT_NUMBERS: &[&str] = &[
    "",
    "00",
    "01",
    "007",
    "0999999",
    "10000000",
    "00000001",
    "4294967296",
    "4294967297",
    "18446744073709551617",
    "-1",
    "+1",
    " 1",
    "1 ",
    "1.0",
    "1e3",
    "x",
];

/// One to three changes: by byte, by line, of a number, of a count of numbers,
/// or a cut. `bytes` are those that may be put in.
pub fn damage(random: &mut Random, text: &[u8], bytes: &[u8]) -> Vec<u8> {
    let mut text = text.to_vec();
    let changes = if random.one_in(3) {
        random.between(2, 3)
    } else {
        1
    };
    for _ in 0..changes {
        text = match random.below(9) {
            0 | 1 => damage_bytes(random, &text, bytes),
            2 | 3 => damage_lines(random, &text),
            4 => cut_text(random, &text),
            5 => damage_count(random, &text),
            _ => damage_number(random, &text),
        };
    }
    text
}

/// Deletes, inserts or replaces one byte.
pub fn damage_bytes(random: &mut Random, text: &[u8], bytes: &[u8]) -> Vec<u8> {
    let mut text = text.to_vec();
    let byte = *random.pick(bytes);
    if text.is_empty() {
        return vec![byte];
    }
    match random.below(3) {
        0 => {
            text.remove(random.below(text.len()));
        }
        1 => text.insert(random.below(text.len() + 1), byte),
        _ => {
            let place = random.below(text.len());
            text[place] = byte;
        }
    }
    text
}

/// Drops or repeats a line, swaps two, or puts an empty one in.
pub fn damage_lines(random: &mut Random, text: &[u8]) -> Vec<u8> {
    let mut lines: Vec<Vec<u8>> = text
        .split_inclusive(|&byte| byte == b'\n')
        .map(<[u8]>::to_vec)
        .collect();
    if lines.is_empty() {
        return b"\n".to_vec();
    }
    let (one, other) = (draw_line(random, lines.len()), random.below(lines.len()));
    match random.below(4) {
        0 => {
            lines.remove(one);
        }
        1 => lines.insert(other, lines[one].clone()),
        2 => lines.swap(one, other),
        _ => lines.insert(one, b"\n".to_vec()),
    }
    lines.concat()
}

/// The place of any line, one in four times of the first or the second.
fn draw_line(random: &mut Random, lines: usize) -> usize {
    if random.one_in(4) {
        random.below(lines.min(2))
    } else {
        random.below(lines)
    }
}

/// Replaces one field of one line by a boundary number, sometimes by what is
/// no number.
pub fn damage_number(random: &mut Random, text: &[u8]) -> Vec<u8> {
    let (from, until) = match draw_field(random, text) {
        Some(field) => field,
        None => return text.to_vec(),
    };
    let fields = if random.one_in(4) {
        NOT_NUMBERS
    } else {
        BOUNDARY_NUMBERS
    };
    let field = random.pick(fields).as_bytes();
    [&text[..from], field, &text[until..]].concat()
}

/// Drops or repeats one field of one line, with its comma.
pub fn damage_count(random: &mut Random, text: &[u8]) -> Vec<u8> {
    let (from, until) = match draw_field(random, text) {
        Some(field) => field,
        None => return text.to_vec(),
    };
    let comma = from - 1;
    if random.one_in(2) {
        [&text[..comma], &text[until..]].concat()
    } else {
        [&text[..until], &text[comma..]].concat()
    }
}

/// Where a field begins and ends: in the header, or in the second line, or the
/// first of a line, or any, each as often as the others.
fn draw_field(random: &mut Random, text: &[u8]) -> Option<(usize, usize)> {
    let commas: Vec<usize> = (0..text.len()).filter(|&at| text[at] == b',').collect();
    let mut ends = (0..text.len()).filter(|&at| text[at] == b'\n');
    let (header_end, second_end) = (ends.next(), ends.next());
    let group = random.below(4);
    let in_group = |&&at: &&usize| match group {
        0 => Some(at) < header_end,
        1 => Some(at) > header_end && Some(at) < second_end,
        2 => at >= 2 && text[at - 2] == b'\n',
        _ => true,
    };
    let chosen: Vec<usize> = commas.iter().filter(in_group).copied().collect();
    let choices = if chosen.is_empty() { &commas } else { &chosen };
    if choices.is_empty() {
        return None;
    }
    let from = random.pick(choices) + 1;
    let ends_field = |&byte: &u8| byte == b',' || byte == b'\n';
    let length = text[from..].iter().position(ends_field);
    Some((from, length.map_or(text.len(), |length| from + length)))
}

/// Cuts the text off somewhere, often before its last byte.
pub fn cut_text(random: &mut Random, text: &[u8]) -> Vec<u8> {
    if text.is_empty() || random.one_in(3) {
        return text[..text.len().saturating_sub(1)].to_vec();
    }
    text[..random.below(text.len())].to_vec()
}
