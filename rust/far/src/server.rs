//! The program `serve` as a child process, and a call handed to it.

use std::io::{self, Read, Write};
use std::process::{self, ChildStdin, ChildStdout, Command, Stdio};
use std::sync::{Mutex, PoisonError};

/// The functions, by the numbers that `serve.c` gives them.
#[derive(Clone, Copy)]
pub(crate) enum Function {
    Read = 0,
    Write = 1,
    Rows = 2,
    FindCommon = 3,
    FindTransfer = 4,
    Class = 5,
    Replace = 6,
    Append = 7,
    Remove = 8,
    Charging = 9,
    Order = 10,
    ProfileRead = 11,
    ProfileWrite = 12,
    AddedClasses = 13,
    Carriers = 14,
    CarrierDigits = 15,
}

/// Octets of an answer before the lent ones: what the function returned, and
/// how much was written that was not lent.
const ANSWER_HEAD: usize = 16;

/// The running program.
struct Server {
    requests: ChildStdin,
    answers: ChildStdout,
    /// A request, then its answer.
    octets: Vec<u8>,
}

/// Calls `function` with its numbers (as `struct head` of `serve.c` tells),
/// the octets that it reads and those that are lent to it.
///
/// The program is started at the first call, and ends when this process does.
pub(crate) fn call(function: Function, numbers: [u64; 3], fixed: &[u8], lent: &mut [u8]) -> u64 {
    static SERVER: Mutex<Option<Server>> = Mutex::new(None);
    let mut server = SERVER.lock().unwrap_or_else(PoisonError::into_inner);
    let answer = match &mut *server {
        Some(server) => server.call(function, numbers, fixed, lent),
        None => Server::start().and_then(|started| {
            let started = server.insert(started);
            started.call(function, numbers, fixed, lent)
        }),
    };
    answer.unwrap_or_else(|error| {
        // Not by eprintln!, which a test would keep to itself.
        let _ = writeln!(io::stderr(), "the codec under the emulator: {error}");
        process::abort()
    })
}

impl Server {
    fn start() -> io::Result<Server> {
        let mut child = Command::new(env!("FAR_EMULATOR"))
            .arg(env!("FAR_SERVE"))
            .stdin(Stdio::piped())
            .stdout(Stdio::piped())
            .spawn()?;
        let pipes = child.stdin.take().zip(child.stdout.take());
        let (requests, answers) = pipes.ok_or(io::ErrorKind::BrokenPipe)?;
        Ok(Server {
            requests,
            answers,
            octets: Vec::new(),
        })
    }

    fn call(
        &mut self,
        function: Function,
        numbers: [u64; 3],
        fixed: &[u8],
        lent: &mut [u8],
    ) -> io::Result<u64> {
        let [first, second, third] = numbers;
        let lens = [fixed.len() as u64, lent.len() as u64];
        self.octets.clear();
        for word in [function as u64, first, second, third, lens[0], lens[1]] {
            self.octets.extend(word.to_le_bytes());
        }
        self.octets.extend_from_slice(fixed);
        self.octets.extend_from_slice(lent);
        self.requests.write_all(&self.octets)?;

        self.octets.resize(ANSWER_HEAD + lent.len(), 0);
        self.answers.read_exact(&mut self.octets)?;
        let (head, after) = self.octets.split_at(ANSWER_HEAD);
        if word(&head[8..]) != 0 {
            return Err(io::Error::other("octets were written that were not lent"));
        }
        lent.copy_from_slice(after);
        Ok(word(&head[..8]))
    }
}

/// A word of 8 octets, least first.
fn word(octets: &[u8]) -> u64 {
    let fold = |word, &octet| word << 8 | u64::from(octet);
    octets.iter().rev().fold(0, fold)
}
