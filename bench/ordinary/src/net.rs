//! The network's actors and wires, the runner `step`, and the traffic.

use crate::core::*;
use crate::node::{Node, Side};
use crate::plan::{Channel, Kind, Plan, Port, Process, Spot};
use crate::switch::Switch;
use std::io::Write;

/// How a run ended.
#[derive(Clone, Copy, PartialEq, Eq)]
pub enum Close {
    Done,
    Quiet,
    Limit,
}

/// The actors in order, the nodes first, and for each the far port of each of its links.
pub struct Network {
    pub nodes: Vec<Node>,
    pub switches: Vec<Switch>,
    pub far: Vec<[Option<(u8, u8)>; 32]>,
}

impl Network {
    pub fn new(plan: &mut Plan) -> Network {
        let nodes = plan.nodes.len();
        let number = |p: Port| match p.spot {
            Spot::Node(i) => i,
            Spot::Switch(i) => nodes + i,
        };
        let mut far = vec![[None; 32]; nodes + plan.switches.len()];
        for [one, two] in plan.wires.iter().copied() {
            far[number(one)][one.link as usize] = Some((number(two) as u8, two.link));
            far[number(two)][two.link as usize] = Some((number(one) as u8, one.link));
        }
        let wired = |a: usize| (0..32).filter(|&l| far[a][l].is_some()).fold(0, |m, l| m | bit(l));
        let processes: Vec<Process> = plan
            .nodes
            .iter_mut()
            .map(|n| std::mem::replace(&mut n.process, Process::Skip))
            .collect();
        Network {
            nodes: processes
                .into_iter()
                .enumerate()
                .map(|(i, p)| Node::new(plan, i, p, wired(i)))
                .collect(),
            switches: plan
                .switches
                .iter()
                .enumerate()
                .map(|(i, s)| Switch::new(s, wired(nodes + i)))
                .collect(),
            far,
        }
    }

    pub fn ended(&self) -> bool {
        self.nodes.iter().all(|n| n.ended())
    }

    pub fn sides(self) -> impl Iterator<Item = Side> {
        self.nodes.into_iter().flat_map(|n| n.sides())
    }
}

/// The tokens of one way. Credit keeps it to 16 tokens and 2 FCTs.
struct Way {
    places: [Token; 32],
    head: u8,
    tail: u8,
}

/// A run event by event: the tokens on the ways, and what is known of each actor.
struct Run<'n> {
    net: &'n mut Network,
    words: Vec<Pcg>,
    /// `ways[32 * actor + link]` goes to that port.
    ways: Vec<Way>,
    /// Where each port's wire leads.
    to: Vec<(u8, u8)>,
    /// Of each actor a bit for each link by which a token comes.
    there: Vec<u32>,
    /// A bit for each actor that may have an act. One that was idle stays so until a token comes.
    active: u64,
}

impl Run<'_> {
    fn new(net: &mut Network) -> Run<'_> {
        let n = net.nodes.len() + net.switches.len();
        let empty = || Way {
            places: [Token::Fct; 32],
            head: 0,
            tail: 0,
        };
        Run {
            words: (0..n).map(|a| Pcg::new(0, a as u64)).collect(),
            ways: (0..32 * n).map(|_| empty()).collect(),
            to: net.far.iter().flatten().map(|f| f.unwrap_or((0, 0))).collect(),
            there: vec![0; n],
            active: if n == 64 { u64::MAX } else { (1 << n) - 1 },
            net,
        }
    }

    /// Takes the token that comes by the actor's least link.
    #[inline(always)]
    fn take(&mut self, a: usize) -> Act {
        let link = self.there[a].trailing_zeros() as usize;
        let way = &mut self.ways[32 * a + link];
        let token = way.places[(way.head & 31) as usize];
        way.head = way.head.wrapping_add(1);
        if way.head == way.tail {
            self.there[a] &= !bit(link);
        }
        let word = self.words[a].next();
        let nodes = self.net.nodes.len();
        if a < nodes {
            self.net.nodes[a].take(link, token, word);
        } else {
            self.net.switches[a - nodes].take(link, token, word);
        }
        let link = link as u8;
        let word = word.into();
        Act::Take { link, word }
    }

    /// Makes the actor's next act but a take, if it has one.
    #[inline(always)]
    fn turn(&mut self, a: usize) -> Option<Act> {
        let nodes = self.net.nodes.len();
        let turn = if a < nodes {
            self.net.nodes[a].turn(|_| true)
        } else {
            self.net.switches[a - nodes].turn(|_| true)
        };
        match turn {
            Turn::Idle => {
                self.active &= !(1 << a);
                None
            }
            Turn::Local(act) => Some(act),
            Turn::Put { link, act, token } => {
                let (b, l) = self.to[32 * a + link];
                let way = &mut self.ways[32 * b as usize + l as usize];
                way.places[(way.tail & 31) as usize] = token;
                way.tail = way.tail.wrapping_add(1);
                self.there[b as usize] |= bit(l as usize);
                self.active |= 1 << b;
                Some(act)
            }
        }
    }

    fn goes_on(&self) -> bool {
        (0..self.there.len()).any(|a| self.there[a] != 0 || self.active >> a & 1 == 1 && may_act(self.net, a))
    }
}

/// Goes round the actors, each of which makes one event a round, until there is none or as many were made as are allowed.
/// `keep`: whether the events are kept. Beside them it tells how many there were.
pub fn run_step(net: &mut Network, limit: u64, keep: bool) -> (Vec<Event>, u64, Close) {
    let mut events: Vec<Event> = Vec::new();
    let mut made = 0u64;
    let mut run = Run::new(net);
    while run.active != 0 {
        let mut round = run.active;
        while round != 0 {
            let a = round.trailing_zeros() as usize;
            if made == limit {
                let close = if run.goes_on() { Close::Limit } else { at_rest(run.net) };
                return (events, made, close);
            }
            let act = if run.there[a] != 0 {
                Some(run.take(a))
            } else {
                run.turn(a)
            };
            if let Some(act) = act {
                made += 1;
                if keep {
                    events.push(Event { actor: a as u8, act });
                }
            }
            round = run.active & (!1 << a);
        }
    }
    (events, made, at_rest(net))
}

/// How a run ends where nothing can happen any more.
fn at_rest(net: &Network) -> Close {
    if net.ended() { Close::Done } else { Close::Quiet }
}

/// The actor has an act that isn't a take.
fn may_act(net: &Network, a: usize) -> bool {
    match net.nodes.get(a) {
        Some(n) => n.may_act(),
        None => net.switches[a - net.nodes.len()].may_act(),
    }
}

// ------------------------------------------------------------------ the traffic

fn decimal(out: &mut Vec<u8>, n: i64) {
    let mut b = [0u8; 20];
    let mut at = 20;
    let mut m = n.unsigned_abs();
    loop {
        at -= 1;
        b[at] = b'0' + (m % 10) as u8;
        m /= 10;
        if m == 0 {
            break;
        }
    }
    if n < 0 {
        at -= 1;
        b[at] = b'-';
    }
    out.extend_from_slice(&b[at..]);
}

/// A message: an int in decimal, bytes in hexadecimal, `-` where it has no byte.
fn push_message(out: &mut Vec<u8>, kind: Kind, message: &[u8]) {
    const DIGITS: &[u8; 16] = b"0123456789abcdef";
    match kind {
        Kind::Int => decimal(out, i64::from_le_bytes(message.try_into().unwrap_or([0; 8]))),
        Kind::Bytes if message.is_empty() => out.push(b'-'),
        Kind::Bytes => {
            out.reserve(2 * message.len() + 1);
            let digits = message
                .iter()
                .flat_map(|b| [DIGITS[(b >> 4) as usize], DIGITS[(b & 15) as usize]]);
            out.extend(digits);
        }
    }
}

/// What both nodes of a channel know of it.
#[derive(Default)]
struct Shown {
    offered: usize,
    finished: u64,
    taken: Option<Log>,
    stopped: bool,
}

fn push_channel(out: &mut Vec<u8>, channel: &Channel, shown: &Shown) {
    let count = shown.taken.as_ref().map_or(0, Log::count);
    let stopped = if shown.stopped { " stopped" } else { "" };
    let (name, offered, finished) = (&channel.name, shown.offered, shown.finished);
    let _ = writeln!(
        out,
        "channel {name} offered {offered} taken {count} finished {finished}{stopped}"
    );
    for (k, message) in shown.taken.iter().flat_map(Log::messages).enumerate() {
        out.extend_from_slice(b"  ");
        decimal(out, k as i64);
        out.push(b' ');
        push_message(out, channel.kind, message);
        out.push(b'\n');
    }
}

/// The lines of each channel, and how the run ended.
pub fn traffic(plan: &Plan, sides: impl Iterator<Item = Side>, close: Close) -> Vec<u8> {
    let mut shown: Vec<Shown> = plan.channels.iter().map(|_| Shown::default()).collect();
    for side in sides {
        let of = &mut shown[side.chan];
        if side.sends {
            (of.offered, of.finished) = (side.offered, side.finished);
        }
        if let Some(log) = side.taken {
            (of.taken, of.stopped) = (Some(log), side.stopped);
        }
    }
    let mut out = Vec::new();
    for (channel, of) in plan.channels.iter().zip(&shown) {
        push_channel(&mut out, channel, of);
    }
    out.extend_from_slice(match close {
        Close::Done => b"end done\n",
        Close::Quiet => b"end quiet\n",
        Close::Limit => b"end limit\n",
    });
    out
}
