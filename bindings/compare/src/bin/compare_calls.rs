//! Makes many calls on the verified library, in numbers and with types, and on the independent implementation, and
//! compares all that comes of them.

use std::env;
use std::process::ExitCode;
use std::time::{Instant, SystemTime, UNIX_EPOCH};

use compare::{cases, Comparison, Difference};
use independent::Random;

const USAGE: &str = "usage: compare_calls [--calls N] [--seed HEX] [--random-only] [--case NUMBER]";
const FIXED_SEED: u64 = 0x9297_9000;

struct Options {
    /// How many calls are made from the two seeds at least, half from each.
    calls: u64,
    seed: Option<u64>,
    /// Leaves out the small inputs.
    random_only: bool,
    /// The one case of the given seed to run.
    case: Option<u64>,
}

fn options(mut arguments: impl Iterator<Item = String>) -> Option<Options> {
    let mut options = Options {
        calls: 10_000_000,
        seed: None,
        random_only: false,
        case: None,
    };
    while let Some(argument) = arguments.next() {
        match argument.as_str() {
            "--calls" => options.calls = arguments.next()?.parse().ok()?,
            "--seed" => options.seed = Some(u64::from_str_radix(&arguments.next()?, 16).ok()?),
            "--random-only" => options.random_only = true,
            "--case" => options.case = Some(arguments.next()?.parse().ok()?),
            _ => return None,
        }
    }
    (options.case.is_none() || options.seed.is_some()).then_some(options)
}

fn seed_from_clock() -> u64 {
    let time = SystemTime::now()
        .duration_since(UNIX_EPOCH)
        .unwrap_or_default();
    Random::new(time.as_nanos() as u64).number()
}

/// Says what differed, if anything did. Answers whether nothing did.
fn same(outcome: Result<(), Box<Difference>>, what: &str, comparison: &Comparison) -> bool {
    let Err(difference) = outcome else {
        return true;
    };
    println!("{what}: {difference}");
    let calls = comparison.calls() + 1;
    println!("compared {calls} calls, 1 difference");
    false
}

/// Runs one case. Answers whether nothing differed.
fn run(seed: u64, number: u64, comparison: &mut Comparison) -> bool {
    let kind = cases::kind(number);
    let what = format!("{kind:?}, to be made again by --seed {seed:x} --case {number}");
    same(cases::run(seed, number, comparison), &what, comparison)
}

fn main() -> ExitCode {
    let Some(options) = options(env::args().skip(1)) else {
        eprintln!("{USAGE}");
        return ExitCode::from(2);
    };
    let start = Instant::now();
    let mut comparison = Comparison::default();
    if let (Some(seed), Some(number)) = (options.seed, options.case) {
        if !run(seed, number, &mut comparison) {
            return ExitCode::FAILURE;
        }
        println!("compared {} calls, 0 differences", comparison.calls());
        return ExitCode::SUCCESS;
    }

    let seed = options.seed.unwrap_or_else(seed_from_clock);
    let origin = if options.seed.is_some() {
        "given"
    } else {
        "from the clock"
    };
    println!("seeds {FIXED_SEED:x} (fixed) and {seed:x} ({origin})");
    if !options.random_only {
        let outcome = cases::exhaustive(&mut comparison);
        if !same(outcome, "small inputs", &comparison) {
            return ExitCode::FAILURE;
        }
        println!("all small inputs: {} calls", comparison.calls());
    }
    for seed in [FIXED_SEED, seed] {
        let until = comparison.calls() + options.calls / 2;
        let mut number = 0;
        while comparison.calls() < until {
            if !run(seed, number, &mut comparison) {
                return ExitCode::FAILURE;
            }
            number += 1;
        }
    }
    let counts: Vec<String> = comparison
        .by_function()
        .map(|(name, all, refused)| {
            let name = name.trim_start_matches("mrz_");
            match refused {
                0 => format!("{name} {all}"),
                _ => format!("{name} {all} ({refused} refused)"),
            }
        })
        .collect();
    println!("{}", counts.join(", "));
    let missing = comparison.missing();
    if !missing.is_empty() {
        for missing in missing {
            println!("not tried: {missing}");
        }
        return ExitCode::FAILURE;
    }
    println!("{} of them also with types", comparison.typed());
    println!(
        "compared {} calls in {} s, 0 differences",
        comparison.calls(),
        start.elapsed().as_secs()
    );
    ExitCode::SUCCESS
}
