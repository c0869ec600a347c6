//! `synicboard replay` and `synicboard check` in plain Rust. Reads a script from standard input,
//! performs it on the plain board, and writes the same text; or reads a trace of format 1 or 2, and
//! checks whether the plain board gives these replies. Kinds of lines that no workload has (close,
//! read, absorb) are malformed here.

#[allow(dead_code)]
mod board;
mod replay;

use std::env;
use std::fs::File;
use std::io;
use std::os::fd::AsFd;
use std::process::ExitCode;

/// A script with a fault, or a wrong trace.
const WRONG_TEXT: u8 = 1;

const USAGE_FAULT: u8 = 2;

const STREAM_FAULT: u8 = 5;

/// The standard streams as files: reads and writes go by blocks with buffers of their own.
fn streams() -> io::Result<(File, File)> {
    let input = File::from(io::stdin().as_fd().try_clone_to_owned()?);
    let output = File::from(io::stdout().as_fd().try_clone_to_owned()?);
    Ok((input, output))
}

fn main() -> ExitCode {
    let done = match env::args().nth(1).as_deref() {
        Some("replay") => streams().and_then(|(input, output)| replay::replay(input, output)),
        Some("check") => streams().and_then(|(input, output)| replay::check(input, output)),
        _ => {
            eprintln!("usage: plain_texts replay|check");
            return ExitCode::from(USAGE_FAULT);
        }
    };
    match done {
        Ok(true) => ExitCode::SUCCESS,
        Ok(false) => ExitCode::from(WRONG_TEXT),
        Err(error) => {
            eprintln!("plain_texts: {error}");
            ExitCode::from(STREAM_FAULT)
        }
    }
}
