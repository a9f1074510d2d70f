//! Runs a listing program on many captures and compares every line with the listing of the independent reader.

use std::env;
use std::fs;
use std::io;
use std::path::{Path, PathBuf};
use std::process::ExitCode;
use std::sync::Arc;
use std::time::{Duration, SystemTime, UNIX_EPOCH};

use independent::captures::{written, Capture, Captures};
use independent::listing::list;
use independent::program::{run, End};
use independent::Random;

const USAGE: &str =
    "usage: compare_listings PROGRAM [--count N] [--seed HEX] [--keep FOLDER] [--patience SECONDS]";
const FIXED_SEED: u64 = 0x9297_9000;
/// How much more than expected a program may print before it is stopped.
const SURPLUS: usize = 4_096;

struct Options {
    program: PathBuf,
    count: usize,
    seed: Option<u64>,
    keep: PathBuf,
    patience: Duration,
}

fn options(arguments: impl Iterator<Item = String>) -> Option<Options> {
    let mut arguments = arguments;
    let mut program = None;
    let mut count = 2_000;
    let mut seed = None;
    let mut keep = PathBuf::from("build");
    let mut patience = 10;
    while let Some(argument) = arguments.next() {
        match argument.as_str() {
            "--count" => count = arguments.next()?.parse().ok()?,
            "--seed" => seed = Some(u64::from_str_radix(&arguments.next()?, 16).ok()?),
            "--keep" => keep = PathBuf::from(arguments.next()?),
            "--patience" => patience = arguments.next()?.parse().ok()?,
            _ if argument.starts_with("--") || program.is_some() => return None,
            _ => program = Some(PathBuf::from(argument)),
        }
    }
    Some(Options {
        program: program?,
        count,
        seed,
        keep,
        patience: Duration::from_secs(patience),
    })
}

fn seed_from_clock() -> u64 {
    let time = SystemTime::now()
        .duration_since(UNIX_EPOCH)
        .unwrap_or_default();
    Random::new(time.as_nanos() as u64).number()
}

/// What is wrong with the lines printed, if anything.
fn first_difference(expected: &[u8], printed: &[u8]) -> Option<String> {
    let mut expected = expected.split_inclusive(|&byte| byte == b'\n');
    let mut printed = printed.split_inclusive(|&byte| byte == b'\n');
    let mut number = 1;
    loop {
        let pair = (expected.next(), printed.next());
        if pair == (None, None) {
            return None;
        }
        if pair.0 != pair.1 {
            let [expected, printed] = [pair.0, pair.1].map(shown);
            return Some(format!(
                "line {number}: expected {expected}, the program printed {printed}"
            ));
        }
        number += 1;
    }
}

fn shown(line: Option<&[u8]>) -> String {
    match line {
        None => "no such line".to_string(),
        Some(line) => {
            let more = if line.len() > 80 { ".." } else { "" };
            let line = &line[..line.len().min(80)];
            format!("`{}`{more}", line.escape_ascii())
        }
    }
}

/// Runs the program on one capture. Answers what is wrong, if anything.
fn compare(options: &Options, capture: &Arc<Vec<u8>>) -> io::Result<Option<String>> {
    let mut expected = Vec::new();
    list(capture.as_slice(), &mut expected)?;
    let run = run(
        &options.program,
        capture,
        expected.len() + SURPLUS,
        options.patience,
    )?;
    let lines = first_difference(&expected, &run.printed);
    let end = match run.end {
        End::Ended(status) if status.success() => None,
        End::Ended(status) => Some(format!("the program ended with {status}")),
        End::Stopped => Some("the program was stopped, too much output or too slow".to_string()),
    };
    Ok(match (lines, end) {
        (Some(lines), Some(end)) => Some(format!("{lines}; {end}")),
        (lines, end) => lines.or(end),
    })
}

/// Writes the capture into the folder and says where it is.
fn keep(folder: &Path, seed: &str, number: usize, capture: &[u8]) -> io::Result<PathBuf> {
    fs::create_dir_all(folder)?;
    let path = folder.join(format!("difference-{seed}-{number}.bin"));
    fs::write(&path, capture)?;
    Ok(path)
}

/// Compares all captures, up to the first difference. Answers whether there was none.
fn compare_all(options: &Options) -> io::Result<bool> {
    let seed = options.seed.unwrap_or_else(seed_from_clock);
    let origin = if options.seed.is_some() {
        "given"
    } else {
        "from the clock"
    };
    println!("seeds {FIXED_SEED:x} (fixed) and {seed:x} ({origin})");

    let half = options.count / 2;
    let rows: [(String, Box<dyn Iterator<Item = Capture>>); 3] = [
        ("written".to_string(), Box::new(written().into_iter())),
        (
            format!("{FIXED_SEED:x}"),
            Box::new(Captures::new(FIXED_SEED).take(options.count - half)),
        ),
        (
            format!("{seed:x}"),
            Box::new(Captures::new(seed).take(half)),
        ),
    ];
    let mut compared = 0;
    for (seed, captures) in rows {
        for (number, capture) in captures.enumerate() {
            let bytes = Arc::new(capture.bytes);
            compared += 1;
            if let Some(difference) = compare(options, &bytes)? {
                let (kind, size) = (capture.kind, bytes.len());
                println!("{seed}, capture {number} ({kind}, {size} bytes): {difference}");
                let path = keep(&options.keep, &seed, number, &bytes)?;
                println!("the capture is kept as {}", path.display());
                println!("compared {compared} captures, 1 difference");
                return Ok(false);
            }
        }
    }
    println!("compared {compared} captures, 0 differences");
    Ok(true)
}

fn main() -> ExitCode {
    let Some(options) = options(env::args().skip(1)) else {
        eprintln!("{USAGE}");
        return ExitCode::from(2);
    };
    match compare_all(&options) {
        Ok(true) => ExitCode::SUCCESS,
        Ok(false) => ExitCode::FAILURE,
        Err(error) => {
            eprintln!("compare_listings: {}: {error}", options.program.display());
            ExitCode::from(2)
        }
    }
}

#[cfg(test)]
mod tests {
    use super::*;

    #[test]
    fn equal_lines_do_not_differ() {
        assert_eq!(first_difference(b"", b""), None);
        let lines = b"limit 1200\nend clean\n";
        assert_eq!(first_difference(lines, lines), None);
    }

    #[test]
    fn the_first_line_that_differs_is_named() {
        let expected = b"limit 1200\nskip 23 0\nend clean\n";
        for (printed, message) in [
            (
                &b"limit 1200\nskip 23 1\nend truncated\n"[..],
                r"line 2: expected `skip 23 0\n`, the program printed `skip 23 1\n`",
            ),
            (
                b"limit 1200\nskip 23 0\n",
                r"line 3: expected `end clean\n`, the program printed no such line",
            ),
            (
                b"limit 1200\nskip 23 0\nend clean",
                r"line 3: expected `end clean\n`, the program printed `end clean`",
            ),
            (
                b"limit 1200\nskip 23 0\nend clean\n\n",
                r"line 4: expected no such line, the program printed `\n`",
            ),
            (
                b"",
                r"line 1: expected `limit 1200\n`, the program printed no such line",
            ),
        ] {
            assert_eq!(
                first_difference(expected, printed).as_deref(),
                Some(message)
            );
        }
    }
}
