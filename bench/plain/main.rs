//! What `vreplay` does, in plain Rust: what a replay costs without proofs.
//!
//! It serves all of docs/model.md and docs/formats.md over an image in memory, which it reads and writes without a cache. Only
//! restores, disks that a host serves, further devices and `--in-place` are left out. A trace with a line `st` or `io` ends it with status
//! 77; of the others' lines it knows nothing.
//!
//! Built by `rustc -O --edition 2021 -o plain bench/plain/main.rs`, called as `plain [TRACE IMAGE [--save FILE]]`.
mod board;
mod device;
mod hex;
mod memory;
mod queue;
mod text;
mod window;

use board::Board;
use std::ffi::OsString;
use std::io::{self, Read, Write};
use std::process::ExitCode;
use std::{env, fs};

/// How much of the records is gathered before it is written.
const BUFFER: usize = 65536;

/// Why a call doesn't end well.
enum End {
    Trace(text::Refused),
    Board(board::Refused),
    Usage,
    Input,
    Output,
}

impl End {
    /// The last line, and the status.
    fn told(&self) -> (String, u8) {
        match self {
            End::Trace(text::Refused::Fault(line, kind)) => (format!("fault trace {line} {kind:?}\n"), 1),
            End::Trace(text::Refused::NotServed) => (String::new(), 77),
            End::Board(name) => (format!("fault board {name:?}\n"), 1),
            End::Usage => ("fault usage\n".into(), 2),
            End::Input => ("fault input\n".into(), 3),
            End::Output => ("fault output\n".into(), 3),
        }
    }
}

fn replay(words: &[OsString]) -> Result<(), End> {
    let (text, image, saved) = match words {
        [] => (standard_input(), Ok(vec![0; 8 * device::SECTOR]), None),
        [trace, image] => (fs::read(trace), fs::read(image), None),
        [trace, image, option, file] if option == "--save" => (fs::read(trace), fs::read(image), Some(file)),
        _ => return Err(End::Usage),
    };
    let image = image.ok().filter(|image| image.len() % device::SECTOR == 0).ok_or(End::Input)?;
    let text = text.map_err(|_| End::Input)?;
    let trace = text::read(&text).map_err(End::Trace)?;
    let mut board = Board::new(&trace, image).map_err(End::Board)?;
    run(&mut board, &trace, &mut io::stdout().lock()).map_err(|_| End::Output)?;
    match saved {
        Some(file) => fs::write(file, board.image()).map_err(|_| End::Output),
        None => Ok(()),
    }
}

fn standard_input() -> io::Result<Vec<u8>> {
    let mut text = Vec::new();
    io::stdin().read_to_end(&mut text)?;
    Ok(text)
}

/// Hands the events to the board, and writes their records.
fn run(board: &mut Board, trace: &text::Trace<'_>, out: &mut impl Write) -> io::Result<()> {
    let mut records = Vec::with_capacity(2 * BUFFER);
    for &event in &trace.events {
        board.step(event, &trace.fields, &mut records);
        if records.len() >= BUFFER {
            out.write_all(&records)?;
            records.clear();
        }
    }
    out.write_all(&records)?;
    out.flush()
}

fn main() -> ExitCode {
    let words: Vec<OsString> = env::args_os().skip(1).collect();
    let Err(end) = replay(&words) else {
        return ExitCode::SUCCESS;
    };
    let (line, status) = end.told();
    if status == 77 {
        eprintln!("restores and disks that a host serves aren't served");
    }
    match io::stdout().write_all(line.as_bytes()) {
        Ok(()) => ExitCode::from(status),
        Err(_) => ExitCode::from(3),
    }
}
