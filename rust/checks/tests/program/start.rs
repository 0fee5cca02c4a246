//! The ways to start the program, and to hand it a text.
//!
//! The program is the repository's target/bin/plan, or the one that
//! `RACKPLAN_PROGRAM` names. It is started by itself, and, where the kit is found
//! and no other program is named, under the kit's loader, with the C library that
//! the kit links programs to.

use std::env::{split_paths, var_os};
use std::ffi::{c_int, c_ulong};
use std::io::{ErrorKind, Write};
use std::os::fd::AsRawFd;
use std::path::{Path, PathBuf};
use std::process::{ChildStdin, Command, Output, Stdio};
use std::thread;
use std::time::{Duration, Instant};

use rackplan::SHEET_MAX;

/// A program and the words in front of it.
pub type Start = Vec<PathBuf>;

/// The ways to start the program.
///
/// # Panics
///
/// If there is no such program.
pub fn starts() -> Vec<Start> {
    if let Some(program) = var_os("RACKPLAN_PROGRAM") {
        let program = PathBuf::from(program);
        assert!(program.is_file(), "RACKPLAN_PROGRAM: no {program:?}");
        return vec![vec![program]];
    }
    let program = Path::new(env!("CARGO_MANIFEST_DIR")).join("../../target/bin/plan");
    assert!(
        program.is_file(),
        "there is no {}: build it with `make program` in the repository, or set RACKPLAN_PROGRAM to a program's path",
        program.display()
    );
    let mut starts = vec![vec![program.clone()]];
    if let Some(libraries) = kit_libraries() {
        let loader = libraries.join("ld-linux-x86-64.so.2");
        starts.push(vec![loader, "--library-path".into(), libraries, program]);
    }
    starts
}

/// The folder of the kit's loader: the kit is where `rt` is.
fn kit_libraries() -> Option<PathBuf> {
    let path = var_os("PATH")?;
    let mut places = split_paths(&path).map(|folder| folder.join("rt"));
    let rt = places.find(|rt| rt.is_file())?.canonicalize().ok()?;
    let libraries = rt.parent()?.parent()?.join("toolchain/lib");
    libraries
        .join("ld-linux-x86-64.so.2")
        .is_file()
        .then_some(libraries)
}

/// How a text is written to the pipe.
#[derive(Clone, Copy, Debug, PartialEq, Eq)]
pub enum Manner {
    AtOnce,
    /// In pieces of so many bytes, with a pause behind each.
    InPieces(usize),
    /// The same, and a piece comes when the one before was read.
    ReadByRead(usize),
}

const PAUSE: Duration = Duration::from_micros(300);
const MOST_WAIT: Duration = Duration::from_secs(60);

pub fn write(mut pipe: ChildStdin, text: &[u8], manner: Manner) {
    let piece = match manner {
        Manner::AtOnce => text.len().max(1),
        Manner::InPieces(bytes) | Manner::ReadByRead(bytes) => bytes,
    };
    for piece in text.chunks(piece) {
        match pipe.write_all(piece) {
            Ok(()) => {}
            // of a sheet that is too long the program need not read all
            Err(error) if error.kind() == ErrorKind::BrokenPipe && text.len() > SHEET_MAX => return,
            Err(error) => panic!("writing to the program: {error}"),
        }
        if matches!(manner, Manner::ReadByRead(_)) {
            wait_until_read(&pipe);
        }
        if manner != Manner::AtOnce {
            thread::sleep(PAUSE);
        }
    }
}

extern "C" {
    fn ioctl(fd: c_int, request: c_ulong, ...) -> c_int;
}

/// Waits until nothing is in the pipe.
///
/// # Panics
///
/// If that takes longer than a program that reads needs.
fn wait_until_read(pipe: &ChildStdin) {
    const FIONREAD: c_ulong = 0x541b;
    let began = Instant::now();
    let mut bytes: c_int = 1;
    while bytes > 0 {
        // SAFETY: this request stores one int, the number of bytes in the pipe
        let status = unsafe { ioctl(pipe.as_raw_fd(), FIONREAD, &mut bytes as *mut c_int) };
        assert_eq!(status, 0, "FIONREAD");
        assert!(began.elapsed() < MOST_WAIT, "a piece is not read");
        thread::yield_now();
    }
}

/// Runs the program on a text, with these variables beside those that are set.
pub fn run(start: &Start, text: &[u8], manner: Manner, variables: &[(&str, String)]) -> Output {
    let mut command = Command::new(&start[0]);
    command.args(&start[1..]);
    command.envs(variables.iter().cloned());
    command.stdin(Stdio::piped()).stdout(Stdio::piped());
    command.stderr(Stdio::piped());
    let mut child = command
        .spawn()
        .unwrap_or_else(|error| panic!("{start:?} does not start: {error}"));
    let pipe = child.stdin.take().expect("it is piped");
    thread::scope(|scope| {
        scope.spawn(|| write(pipe, text, manner));
        child.wait_with_output().expect("the program ends")
    })
}
