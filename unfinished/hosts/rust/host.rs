//! A small host: runs the script in a file through the C function and prints the listing.
#![deny(warnings)]

use std::io::Write;
use std::process::ExitCode;

use depot::proved;

fn main() -> ExitCode {
    let Some(path) = std::env::args_os().nth(1) else {
        eprintln!("usage: host SCRIPT");
        return ExitCode::from(2);
    };
    let script = match std::fs::read(&path) {
        Ok(script) => script,
        Err(error) => {
            eprintln!("{}: {error}", path.to_string_lossy());
            return ExitCode::from(2);
        }
    };
    match std::io::stdout().write_all(&proved::listing(&script)) {
        Ok(()) => ExitCode::SUCCESS,
        Err(_) => ExitCode::FAILURE,
    }
}
