//! Writes a capture that is made from a seed to standard output: the one with the given number in the seed's row,
//! or one long stream of whole capsules.

use std::env;
use std::io::{self, Write};
use std::process::ExitCode;

use independent::captures::{long_stream, Captures};

fn capture(arguments: &[String]) -> Option<Vec<u8>> {
    match arguments {
        [seed, number] => {
            let seed = u64::from_str_radix(seed, 16).ok()?;
            let capture = Captures::new(seed).nth(number.parse().ok()?)?;
            Some(capture.bytes)
        }
        [seed, option, size] if option == "--bytes" => {
            let seed = u64::from_str_radix(seed, 16).ok()?;
            Some(long_stream(seed, size.parse().ok()?))
        }
        _ => None,
    }
}

fn main() -> ExitCode {
    let arguments: Vec<String> = env::args().skip(1).collect();
    let Some(bytes) = capture(&arguments) else {
        eprintln!("usage: make_capture SEED NUMBER | make_capture SEED --bytes SIZE  (SEED in hexadecimal digits)");
        return ExitCode::from(2);
    };
    match io::stdout().lock().write_all(&bytes) {
        Ok(()) => ExitCode::SUCCESS,
        Err(error) => {
            eprintln!("make_capture: {error}");
            ExitCode::FAILURE
        }
    }
}
