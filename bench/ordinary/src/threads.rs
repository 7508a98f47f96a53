//! One thread for each actor, and the merge of what the threads did.

use crate::core::*;
use crate::net::{Close, Network};
use crate::ring::{Receiver, Sender, Stamped, ring};
use std::sync::atomic::{AtomicUsize, Ordering::*};

/// Open until every node has told its end.
struct EndGate {
    left: AtomicUsize,
}

impl EndGate {
    #[inline]
    fn pass(&self) -> bool {
        self.left.load(Relaxed) != 0
    }
    fn ended(&self) {
        self.left.fetch_sub(1, Relaxed);
    }
}

/// The rings of an actor's links, each with its link.
#[derive(Default)]
struct Ends {
    outs: Vec<(usize, Sender)>,
    ins: Vec<(usize, Receiver)>,
}

/// An actor's acts. Each one's stamp is one more than the one's before it, but where
/// `jumps` gives (index, stamp).
#[derive(Default)]
pub struct Acts {
    acts: Vec<Act>,
    jumps: Vec<(usize, u64)>,
    /// How many acts there were, kept or not.
    made: u64,
}

/// Idle turns before the thread gives its core away.
const SPINS: u32 = 4;

/// What a worker has at hand: its actor, its rings, its clock, and what it did.
struct Desk<'w, A> {
    actor: &'w mut A,
    ends: Ends,
    /// Where the ring of each link stands among those that go out.
    place: [usize; 32],
    words: Pcg,
    clock: u64,
    /// How many stamps the clock passed over.
    skipped: u64,
    run: Acts,
    keep: bool,
}

impl<A: Agent> Desk<'_, A> {
    /// The act gets the next stamp.
    #[inline(always)]
    fn made(&mut self, act: Act) {
        self.clock += 1;
        if self.keep {
            self.run.acts.push(act);
        }
    }

    /// Takes the token of the least link by which one comes; whether there was one.
    #[inline(always)]
    fn take(&mut self) -> bool {
        let taken = self.ends.ins.iter_mut().find_map(|(link, r)| Some((*link, r.pop()?)));
        let Some((link, item)) = taken else {
            return false;
        };
        if item.at > self.clock {
            self.skipped += item.at - self.clock;
            self.clock = item.at;
            if self.keep {
                self.run.jumps.push((self.run.acts.len(), self.clock + 1));
            }
        }
        let word = self.words.next();
        self.actor.take(link, item.token, word);
        let (link, word) = (link as u8, word.into());
        self.made(Act::Take { link, word });
        true
    }

    /// Makes the actor's next act but a take; whether there was one.
    #[inline(always)]
    fn turn(&mut self) -> bool {
        let (outs, place) = (&mut self.ends.outs, &self.place);
        match self.actor.turn(|link| outs[place[link & 31]].1.has_room()) {
            Turn::Idle => return false,
            Turn::Local(act) => self.made(act),
            Turn::Put { link, act, token } => {
                self.made(act);
                let at = self.clock;
                self.ends.outs[self.place[link & 31]].1.push(Stamped { at, token });
            }
        }
        true
    }
}

/// Makes turns until they are used up or the gate is shut, and tells the gate once when its actor has ended.
fn worker<A: Agent>(mut desk: Desk<'_, A>, gate: &EndGate, turns: u64) -> Acts {
    for (k, (link, _)) in desk.ends.outs.iter().enumerate() {
        desk.place[*link] = k;
    }
    let mut told = false;
    let mut idle = 0;
    for _ in 0..turns {
        if !told && desk.actor.ended() {
            told = true;
            gate.ended();
        }
        if !gate.pass() {
            break;
        }
        if desk.take() || desk.turn() {
            idle = 0;
            continue;
        }
        idle += 1;
        if idle >= SPINS {
            std::thread::yield_now();
        }
    }
    if !told && desk.actor.ended() {
        gate.ended();
    }
    desk.run.made = desk.clock - desk.skipped;
    desk.run
}

/// How many stamps are sorted at once.
const BLOCK: u64 = 4096;

/// Where a run is: its next act, that act's stamp, and its next jump.
type At = (usize, u64, usize);

fn begin(run: &Acts) -> At {
    match run.jumps.first() {
        Some(&(0, stamp)) => (0, stamp, 1),
        _ => (0, 1, 0),
    }
}

/// All acts by stamp, then actor: a counting sort, one block of stamps at a time.
fn merge(runs: &[Acts]) -> Vec<Event> {
    let total: usize = runs.iter().map(|r| r.acts.len()).sum();
    let none = Event {
        actor: 0,
        act: Act::Put { link: 0 },
    };
    let mut events = vec![none; total];
    let mut counts = vec![0u32; BLOCK as usize + 1];
    let mut at: Vec<At> = runs.iter().map(begin).collect();
    let mut done = 0;
    while done < total {
        let left = (0..runs.len()).filter(|&a| at[a].0 < runs[a].acts.len());
        let from = left.map(|a| at[a].1).min().unwrap_or(0);
        done += merge_block(runs, from, &mut at, &mut counts, &mut events[done..]);
    }
    events
}

/// Merges the acts of the stamps from this one on, as many as a block has; how many they were.
fn merge_block(runs: &[Acts], from: u64, at: &mut [At], counts: &mut [u32], out: &mut [Event]) -> usize {
    counts.fill(0);
    for (a, r) in runs.iter().enumerate() {
        walk(r, at[a], from + BLOCK, |_, stamp| {
            counts[(stamp - from) as usize + 1] += 1
        });
    }
    for k in 1..counts.len() {
        counts[k] += counts[k - 1];
    }
    for (a, r) in runs.iter().enumerate() {
        at[a] = walk(r, at[a], from + BLOCK, |act, stamp| {
            let c = &mut counts[(stamp - from) as usize];
            out[*c as usize] = Event { actor: a as u8, act };
            *c += 1;
        });
    }
    // every count is now where the next stamp's was
    counts[BLOCK as usize - 1] as usize
}

/// Goes through a run's acts, from this act, stamp and jump on, as long as the stamps are below `to`; gives back where it came to.
#[inline]
fn walk(r: &Acts, (mut k, mut stamp, mut jump): At, to: u64, mut f: impl FnMut(Act, u64)) -> At {
    while k < r.acts.len() && stamp < to {
        f(r.acts[k], stamp);
        k += 1;
        stamp += 1;
        if let Some(&(index, s)) = r.jumps.get(jump)
            && index == k
        {
            stamp = s;
            jump += 1;
        }
    }
    (k, stamp, jump)
}

fn desk<A>(actor: &mut A, (number, ends): (usize, Ends), seed: u32, keep: bool) -> Desk<'_, A> {
    Desk {
        actor,
        ends,
        place: [0; 32],
        words: Pcg::new(seed as u64, number as u64),
        clock: 0,
        skipped: 0,
        run: Acts::default(),
        keep,
    }
}

/// Runs a thread for each actor. `keep`: whether the acts are kept. Beside them it tells how many there were.
pub fn run_threads(net: &mut Network, turns: u64, seed: u32, keep: bool) -> (Vec<Event>, u64, Close) {
    let nodes = net.nodes.len();
    let n = nodes + net.switches.len();
    let mut ends: Vec<Ends> = (0..n).map(|_| Ends::default()).collect();
    for a in 0..n {
        for l in 0..32 {
            if let Some((b, m)) = net.far[a][l] {
                let (s, r) = ring();
                ends[a].outs.push((l, s));
                ends[b as usize].ins.push((m as usize, r));
            }
        }
    }
    for e in &mut ends {
        e.ins.sort_by_key(|i| i.0);
    }
    let gate = EndGate {
        left: AtomicUsize::new(nodes),
    };
    let gate = &gate;
    let runs: Vec<Acts> = std::thread::scope(|scope| {
        let mut ends = ends.into_iter().enumerate();
        let mut handles = Vec::new();
        for (node, ends) in net.nodes.iter_mut().zip(&mut ends) {
            let desk = desk(node, ends, seed, keep);
            handles.push(scope.spawn(move || worker(desk, gate, turns)));
        }
        for (switch, ends) in net.switches.iter_mut().zip(&mut ends) {
            let desk = desk(switch, ends, seed, keep);
            handles.push(scope.spawn(move || worker(desk, gate, turns)));
        }
        handles.into_iter().map(|h| h.join().expect("a worker")).collect()
    });
    let events = merge(&runs);
    let made = runs.iter().map(|r| r.made).sum();
    (events, made, if net.ended() { Close::Done } else { Close::Limit })
}
