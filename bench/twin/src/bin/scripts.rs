//! Puts the commands of a script in order, as the proved `tb_bench script` does, and again round by round.
//! The two orders must be one. The script has sessions that hear and tell alone, as `make_waits.py` prints
//! them. What was found goes to standard output, and the nanoseconds of each way to standard error.

use std::collections::BTreeMap;
use std::io::{self, Read};
use std::time::Instant;
use twin::rounds::{Marked, Step, rounds};

// As large as the proved program's command, since reading commands from memory is most of the time.
#[allow(dead_code)]
enum Command {
    Load { name: Vec<u8>, lines: Vec<u8> },
    Query { text: Vec<u8> },
    Tell { mark: u32, name: Vec<u8> },
    Hear { mark: u32, name: Vec<u8> },
}

fn main() -> io::Result<()> {
    let mut script = Vec::new();
    io::stdin().lock().read_to_end(&mut script)?;
    let (sessions, marks) = read(&script);
    let start = Instant::now();
    let steps = schedule(&sessions, marks);
    eprintln!("schedule {}", start.elapsed().as_nanos());
    let start = Instant::now();
    let rounds = rounds(&sessions, marks, marked);
    eprintln!("rounds {}", start.elapsed().as_nanos());
    assert!(steps == rounds, "the two orders differ");
    println!("steps {}", steps.len());
    println!("steps-sum {}", steps_sum(&steps));
    Ok(())
}

fn read(script: &[u8]) -> (Vec<Vec<Command>>, usize) {
    let mut numbers = BTreeMap::new();
    for line in script.split(|&byte| byte == b'\n') {
        if let Some(name) = line.strip_prefix(b"tell ") {
            numbers.insert(name, numbers.len() as u32);
        }
    }
    let mut sessions = Vec::new();
    for line in script.split(|&byte| byte == b'\n') {
        if line == b"session" {
            sessions.push(Vec::new());
        } else if let Some(session) = sessions.last_mut() {
            session.extend(command(line, &numbers));
        }
    }
    (sessions, numbers.len())
}

fn command(line: &[u8], numbers: &BTreeMap<&[u8], u32>) -> Option<Command> {
    if let Some(name) = line.strip_prefix(b"tell ") {
        return Some(Command::Tell { mark: numbers[name], name: name.to_vec() });
    }
    let name = line.strip_prefix(b"hear ")?;
    Some(Command::Hear { mark: numbers[name], name: name.to_vec() })
}

/// Looks only at sessions that may go on; a bit of a number stands for each of at most 64.
fn schedule(sessions: &[Vec<Command>], marks: usize) -> Vec<Step> {
    let mut done = vec![0; sessions.len()];
    let mut told = vec![false; marks];
    let mut waiters = vec![0u64; marks];
    let (mut awake, mut later) = (u64::MAX, 0u64);
    let mut steps = Vec::new();
    loop {
        if awake == 0 {
            if later == 0 {
                return steps;
            }
            awake = later;
            later = 0;
        }
        let at = awake.trailing_zeros() as usize;
        awake &= !(1 << at);
        let Some(command) = sessions.get(at).and_then(|session| session.get(done[at])) else {
            continue;
        };
        match command {
            Command::Hear { mark, .. } if !told[*mark as usize] => {
                waiters[*mark as usize] |= 1 << at;
                continue;
            }
            Command::Tell { mark, .. } => {
                told[*mark as usize] = true;
                let woken = waiters[*mark as usize];
                awake |= woken & (u64::MAX << at) & !(1 << at);
                later |= woken;
            }
            _ => {}
        }
        steps.push((at as u32, done[at] as u32));
        done[at] += 1;
        later |= 1 << at;
    }
}

fn marked(command: &Command) -> Marked {
    match command {
        Command::Tell { mark, .. } => Marked::Tells(*mark as usize),
        Command::Hear { mark, .. } => Marked::Hears(*mark as usize),
        _ => Marked::Neither,
    }
}

/// A number that differs where the steps do, most likely.
fn steps_sum(steps: &[Step]) -> u64 {
    steps.iter().fold(1u64, |sum, &(session, command)| {
        let sum = sum.wrapping_mul(31).wrapping_add(u64::from(session));
        sum.wrapping_mul(31).wrapping_add(u64::from(command))
    })
}
