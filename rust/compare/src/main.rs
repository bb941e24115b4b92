//! Compares the two codecs on inputs by seed.

use compare::{compare, proved};
use std::process::ExitCode;
use std::time::Instant;
use trial::{answer, input_at, Outcome};

const USAGE: &str = "\
usage: compare SEED COUNT        puts so many inputs to both codecs; fails at the first difference,
                                 or if an answer that can be given did not occur;
                                 says on standard error, every 5 seconds, how far it is
       compare show SEED INDEX   one input, and what each codec makes of it";

fn main() -> ExitCode {
    let arguments: Vec<String> = std::env::args().skip(1).collect();
    let words: Vec<&str> = arguments.iter().map(String::as_str).collect();
    run(&words).unwrap_or_else(|| {
        eprintln!("{USAGE}");
        ExitCode::FAILURE
    })
}

/// Does what the words ask; none if they ask nothing that is known.
fn run(words: &[&str]) -> Option<ExitCode> {
    match *words {
        ["show", seed, index] => Some(show(seed.parse().ok()?, index.parse().ok()?)),
        [seed, count] => Some(compare_all(seed.parse().ok()?, count.parse().ok()?)),
        _ => None,
    }
}

/// Seconds from one word of progress to the next.
const EVERY: u64 = 5;

/// Says on standard error how many inputs are done, every few seconds.
fn progress(start: Instant, count: u64) -> impl FnMut(u64) {
    let mut next = EVERY;
    move |done| {
        let seconds = start.elapsed().as_secs();
        if seconds >= next {
            eprintln!("{done} of {count} inputs after {seconds} s");
            next = seconds + EVERY;
        }
    }
}

fn compare_all(seed: u64, count: u64) -> ExitCode {
    let start = Instant::now();
    match compare(seed, count, progress(start, count)) {
        Ok(coverage) => {
            let seconds = start.elapsed().as_secs_f64();
            println!("{coverage}\n{count} inputs without a difference in {seconds:.2} s");
            judge(&coverage.lacking())
        }
        Err(difference) => {
            println!("{difference}");
            ExitCode::FAILURE
        }
    }
}

/// Fails, naming them, if answers did not occur that can be given.
fn judge(lacking: &[String]) -> ExitCode {
    if lacking.is_empty() {
        return ExitCode::SUCCESS;
    }
    println!("answers that did not occur: {}", lacking.join("; "));
    ExitCode::FAILURE
}

fn show(seed: u64, index: u64) -> ExitCode {
    let input = input_at(seed, index);
    let (proved, plain) = (proved(&input), answer(&input));
    println!("{input:02X?}");
    tell("proved", &proved);
    tell("plain", &plain);
    if proved == plain {
        println!("the same");
        ExitCode::SUCCESS
    } else {
        println!("DIFFERENT");
        ExitCode::FAILURE
    }
}

fn tell(codec: &str, outcome: &Outcome) {
    let (number, place, value) = (outcome.number(), outcome.place(), outcome.value());
    println!("{codec}: number {number} place {place} value {value}");
    println!("memory {:02X?}", outcome.memory);
}
