//! The work of `vcnet check`, `step` and `run` as an ordinary Rust program: std alone, and nothing proved. It stands here to be measured
//! beside `vcnet`, which must print the same for every network.
//!
//! Three environment variables are for measuring. With `ORDINARY_STATS` it writes how many events there were, and their seconds, to
//! standard error; with `ORDINARY_FORGET` it keeps no list of events; with `ORDINARY_EVENTS` it writes that list to the file so named.

mod check;
mod core;
mod json;
mod limits;
mod net;
mod node;
mod paths;
mod plan;
mod process;
mod reader;
#[cfg_attr(feature = "classic_ring", path = "ring_classic.rs")]
mod ring;
mod switch;
mod threads;
mod usage;

use net::{Close, Network, run_step, traffic};
use plan::Plan;
use std::io::{Read, Write};

const USAGE: &str = "ordinary check | step [--limit N] | run [--turns N] [--seed N]";
/// How long a network file may be.
const MOST_INPUT: usize = 16_777_216;

/// What the command line asks for.
enum Line {
    Check,
    Step { limit: u64 },
    Run { turns: u64, seed: u32 },
}

/// The command line; none where it has another form.
fn command() -> Option<Line> {
    let words: Vec<String> = std::env::args().skip(1).collect();
    let mut line = match words.first()?.as_str() {
        "check" => Line::Check,
        "step" => Line::Step { limit: 1_000_000 },
        "run" => Line::Run {
            turns: 10_000_000,
            seed: 0,
        },
        _ => return None,
    };
    let mut rest = words[1..].iter();
    while let Some(w) = rest.next() {
        let (name, number) = match w.split_once('=') {
            Some((name, number)) => (name, number.to_string()),
            None => (w.as_str(), rest.next()?.clone()),
        };
        let number: u64 = number.parse().ok()?;
        match (&mut line, name) {
            (Line::Step { limit: n }, "--limit") | (Line::Run { turns: n, .. }, "--turns")
                if number <= 1_000_000_000 =>
            {
                *n = number
            }
            (Line::Run { seed, .. }, "--seed") => *seed = u32::try_from(number).ok()?,
            _ => return None,
        }
    }
    Some(line)
}

/// Writes the text, and ends with this status, or with 6 where it can't be written.
fn say(text: &[u8], status: i32) -> ! {
    let mut out = std::io::stdout().lock();
    let done = out.write_all(text).and_then(|_| out.flush());
    std::process::exit(if done.is_ok() { status } else { 6 })
}

fn main() {
    if matches!(std::env::args().nth(1).as_deref(), Some("--help" | "-h" | "help")) {
        say(format!("{USAGE}\n").as_bytes(), 0);
    }
    let Some(line) = command() else {
        say(format!("usage: {USAGE}\n").as_bytes(), 5)
    };
    let mut data = Vec::new();
    let read = std::io::stdin()
        .lock()
        .take(MOST_INPUT as u64 + 1)
        .read_to_end(&mut data);
    if read.is_err() || data.len() > MOST_INPUT {
        say(b"fault read\n", 6);
    }
    let (text, status) = match reader::read_network(&data).and_then(|plan| check::check(&plan).map(|_| plan)) {
        Err(refusal) => (format!("{refusal}\n").into_bytes(), 2),
        Ok(plan) => answer(line, plan),
    };
    say(&text, status)
}

/// What is printed of an accepted plan, and the status.
fn answer(line: Line, mut plan: Plan) -> (Vec<u8>, i32) {
    if let Line::Check = line {
        return (accepted(&plan).into_bytes(), 0);
    }
    let start = std::time::Instant::now();
    let keep = std::env::var_os("ORDINARY_FORGET").is_none();
    let mut net = Network::new(&mut plan);
    let (events, made, close) = match line {
        Line::Run { turns, seed } => threads::run_threads(&mut net, turns, seed, keep),
        Line::Step { limit } => run_step(&mut net, limit, keep),
        Line::Check => run_step(&mut net, 0, keep),
    };
    if std::env::var_os("ORDINARY_STATS").is_some() {
        eprintln!("events {made} seconds {:.6}", start.elapsed().as_secs_f64());
    }
    if let Some(path) = std::env::var_os("ORDINARY_EVENTS") {
        let lines: String = events.iter().map(|e| format!("{} {:?}\n", e.actor, e.act)).collect();
        let _ = std::fs::write(path, lines);
    }
    let status = match close {
        Close::Done => 0,
        Close::Quiet => 1,
        Close::Limit => 3,
    };
    (traffic(&plan, net.sides(), close), status)
}

fn accepted(plan: &Plan) -> String {
    format!(
        "accepted nodes {} switches {} vlinks {} channels {}\n",
        plan.nodes.len(),
        plan.switches.len(),
        plan.vlinks.len(),
        plan.channels.len()
    )
}
