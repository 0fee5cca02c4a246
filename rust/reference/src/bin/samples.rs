//! `samples SEED COUNT` prints small sheets, each with what the program shall
//! print for it: one line per case, `SHEET<TAB>OUTPUT`. Byte 10 is written as
//! backslash and n, a backslash as two, and any other byte outside 32 to 126
//! as backslash, x and two hexadecimal digits.

use std::io::{self, BufWriter, Write};
use std::process::ExitCode;

use reference::generator::{small_case, Random, PRINTABLE_BYTES};
use reference::program_output;

fn main() -> ExitCode {
    let arguments: Vec<String> = std::env::args().skip(1).collect();
    let numbers: Vec<u64> = arguments.iter().flat_map(|text| text.parse()).collect();
    if arguments.len() != 2 || numbers.len() != 2 {
        eprintln!("usage: samples SEED COUNT");
        return ExitCode::from(2);
    }
    match print_samples(numbers[0], numbers[1]) {
        Ok(()) => ExitCode::SUCCESS,
        Err(error) => {
            eprintln!("samples: {error}");
            ExitCode::FAILURE
        }
    }
}

fn print_samples(seed: u64, count: u64) -> io::Result<()> {
    let mut random = Random::new(seed);
    let mut out = BufWriter::new(io::stdout().lock());
    for _ in 0..count {
        let sheet = small_case(&mut random, PRINTABLE_BYTES).text;
        let output = program_output(&sheet);
        writeln!(out, "{}\t{}", escaped(&sheet), escaped(&output))?;
    }
    out.flush()
}

fn escaped(bytes: &[u8]) -> String {
    let mut text = String::new();
    for &byte in bytes {
        match byte {
            b'\n' => text.push_str("\\n"),
            b'\\' => text.push_str("\\\\"),
            32..=126 => text.push(char::from(byte)),
            _ => text.push_str(&format!("\\x{byte:02x}")),
        }
    }
    text
}
