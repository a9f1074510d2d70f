//! Lists the capsules of a capture, from the file named or from standard input, with the independent reader.

use std::env;
use std::fs::File;
use std::io;
use std::process::ExitCode;

use independent::listing::list;

fn main() -> ExitCode {
    let arguments: Vec<_> = env::args_os().skip(1).collect();
    let output = io::stdout().lock();
    let result = match arguments.as_slice() {
        [] => list(io::stdin().lock(), output),
        [path] => File::open(path).and_then(|file| list(file, output)),
        _ => {
            eprintln!("usage: list_independent [CAPTURE]");
            return ExitCode::from(2);
        }
    };
    match result {
        Ok(()) => ExitCode::SUCCESS,
        Err(error) => {
            eprintln!("list_independent: {error}");
            ExitCode::FAILURE
        }
    }
}
