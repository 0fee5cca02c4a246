//! `bench [--quick]` prints what the library takes beside plain Rust: the whole
//! call `plan`, the call `read`, and each of the layers behind it, on the largest
//! sheets and on parts of one.

mod layers;
mod measure;
mod read;
mod whole;

use std::process::ExitCode;

use measure::{FULL, QUICK};

fn main() -> ExitCode {
    let arguments: Vec<String> = std::env::args().skip(1).collect();
    let effort = match arguments.iter().map(String::as_str).collect::<Vec<_>>()[..] {
        [] => FULL,
        ["--quick"] => QUICK,
        _ => {
            eprintln!("usage: bench [--quick]");
            return ExitCode::from(2);
        }
    };
    println!(
        "Microseconds a call: the median of {} batches of about {:?}, the contestants in turn.",
        effort.batches, effort.batch
    );
    println!("Buffers are not cleared between runs.");
    println!();
    whole::print(&effort);
    println!();
    read::print(&effort);
    println!();
    layers::print(&effort);
    ExitCode::SUCCESS
}
