//! Runs calls of one operation on messages of one class; for `bin/speed`.

use speed::class::{CLASSES, LENGTHS, SERIES};
use speed::operation::{GROWING, OPERATIONS};
use speed::{clock, Class, Operation, Sides};
use std::process::ExitCode;

const USAGE: &str = "\
usage: speed list     each operation with each class
       speed series   each operation that grows, each series and each length of its messages
       speed time OPERATION CLASS
                      nanoseconds a call, proved and plain, and the checksum
       speed run OPERATION CLASS SIDE PASSES
                      how many calls one side (proved, plain) had in so many passes over the inputs

The class of a series is its name, a hyphen and the length. Before it measures or runs, the program
puts every input to both sides, and fails where a checksum over answers and octets is not the same.";

/// How many messages of a class there are.
const MESSAGES: usize = 520;

fn main() -> ExitCode {
    let arguments: Vec<String> = std::env::args().skip(1).collect();
    let words: Vec<&str> = arguments.iter().map(String::as_str).collect();
    match told(&words) {
        Ok(text) => {
            println!("{text}");
            ExitCode::SUCCESS
        }
        Err(text) => {
            eprintln!("{text}");
            ExitCode::FAILURE
        }
    }
}

/// What the words ask for.
fn told(words: &[&str]) -> Result<String, String> {
    match *words {
        ["list"] => Ok(list()),
        ["series"] => Ok(series()),
        ["time", operation, class] => {
            let (mut sides, sum) = agreed(operation, class)?;
            let (proved, plain) = clock::nanoseconds(&mut sides);
            Ok(format!("{proved:.1} {plain:.1} {sum:016x}"))
        }
        ["run", operation, class, side, passes] => {
            let (sides, _) = agreed(operation, class)?;
            let passes = passes.parse().map_err(|_| USAGE)?;
            Ok(run(sides, side, passes)?.to_string())
        }
        _ => Err(USAGE.to_string()),
    }
}

fn list() -> String {
    let classes = |operation| CLASSES.map(|(class, _)| format!("{operation} {class}"));
    OPERATIONS.map(|(o, _)| classes(o).join("\n")).join("\n")
}

fn series() -> String {
    let mut lines = Vec::new();
    for operation in GROWING {
        for (series, _) in SERIES {
            for len in LENGTHS {
                lines.push(format!("{operation} {series} {len}"));
            }
        }
    }
    lines.join("\n")
}

/// Both sides of the operation on the class, and their checksum.
fn agreed(operation: &str, class: &str) -> Result<(Sides, u64), String> {
    let found = Operation::named(operation).zip(Class::named(class));
    let (op, messages) = found.ok_or(USAGE)?;
    let mut sides = op.sides(messages, MESSAGES);
    match sides.agreed() {
        Some(sum) => Ok((sides, sum)),
        None => Err(format!("the codecs differ: {operation}, {class}")),
    }
}

/// Runs one side; gives how many calls it had.
fn run(mut sides: Sides, side: &str, passes: usize) -> Result<usize, &'static str> {
    let side = match side {
        "proved" => &mut sides.proved,
        "plain" => &mut sides.plain,
        _ => return Err(USAGE),
    };
    side.run(passes);
    Ok(side.inputs() * passes)
}
