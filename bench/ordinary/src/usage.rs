//! Whether the parts of a PAR share what they may not, refusal 13.

use crate::plan::{BytesExpr, Cond, Expr, Process, Value};

/// What the parts of a PAR share, or a replicated SEQ changes.
pub enum Fault {
    Chan(usize),
    Var(usize),
}

/// Channels output on, channels input on, variables changed, variables used.
#[derive(Clone)]
struct Uses {
    outs: Vec<u64>,
    ins: Vec<u64>,
    changed: u64,
    used: u64,
}

fn vars_of_expr(e: &Expr) -> u64 {
    match e {
        Expr::Num(_) => 0,
        Expr::Var(v) | Expr::Size(v) => 1 << (v & 63),
        Expr::Bin(_, both) => vars_of_expr(&both.0) | vars_of_expr(&both.1),
    }
}

fn vars_of_cond(c: &Cond) -> u64 {
    match c {
        Cond::Always(_) => 0,
        Cond::Cmp(_, left, right) => vars_of_expr(left) | vars_of_expr(right),
        Cond::And(both) | Cond::Or(both) => vars_of_cond(&both.0) | vars_of_cond(&both.1),
        Cond::Not(c) => vars_of_cond(c),
    }
}

fn vars_of_value(v: &Value) -> u64 {
    match v {
        Value::Int(e) => vars_of_expr(e),
        Value::Bytes(BytesExpr::Var(v)) => 1 << (v & 63),
        Value::Bytes(_) => 0,
    }
}

fn set(mask: &mut [u64], channel: usize) {
    mask[channel / 64] |= 1 << (channel % 64);
}

fn least(mask: &[u64]) -> Option<usize> {
    let (k, word) = mask.iter().enumerate().find(|(_, word)| **word != 0)?;
    Some(64 * k + word.trailing_zeros() as usize)
}

impl Uses {
    /// What stands in p itself.
    fn of(p: &Process, words: usize) -> Uses {
        let mut uses = Uses {
            outs: vec![0; words],
            ins: vec![0; words],
            changed: 0,
            used: 0,
        };
        match p {
            Process::Set { var, value } => {
                uses.changed |= 1 << var;
                uses.used |= vars_of_value(value);
            }
            Process::Send { chan, value } => {
                set(&mut uses.outs, *chan);
                uses.used |= vars_of_value(value);
            }
            Process::Receive { chan, var } => {
                set(&mut uses.ins, *chan);
                uses.changed |= 1 << var;
            }
            Process::Stopch { chan } => set(&mut uses.ins, *chan),
            Process::If(branches) => branches.iter().for_each(|b| uses.used |= vars_of_cond(&b.0)),
            Process::While { cond, .. } => uses.used |= vars_of_cond(cond),
            Process::Count { var, base, count, .. } => {
                uses.changed |= 1 << var;
                uses.used |= vars_of_expr(base) | vars_of_expr(count);
            }
            Process::Alt(guards) => {
                for guard in guards {
                    uses.used |= vars_of_cond(&guard.cond);
                    set(&mut uses.ins, guard.chan);
                    uses.changed |= 1 << guard.var;
                }
            }
            Process::Skip | Process::Stop | Process::Seq(_) | Process::Par(_) => {}
        }
        uses
    }

    /// Adds what a part uses.
    fn add(&mut self, part: &Uses) {
        let both = |mine: &mut [u64], other: &[u64]| mine.iter_mut().zip(other).for_each(|(m, o)| *m |= o);
        both(&mut self.outs, &part.outs);
        both(&mut self.ins, &part.ins);
        self.changed |= part.changed;
        self.used |= part.used | part.changed;
    }
}

/// What two parts share: first an end of a channel, then a variable that one of them changes.
fn shared(parts: &[Uses], words: usize) -> Option<Fault> {
    let mut all = Uses::of(&Process::Skip, words);
    let (mut outs, mut ins, mut vars) = (vec![0; words], vec![0; words], 0);
    for part in parts {
        for word in 0..words {
            outs[word] |= all.outs[word] & part.outs[word];
            ins[word] |= all.ins[word] & part.ins[word];
        }
        vars |= (all.changed & part.used) | (all.used & part.changed);
        all.add(part);
    }
    let channel = least(&outs).or_else(|| least(&ins)).map(Fault::Chan);
    channel.or_else(|| least(&[vars]).map(Fault::Var))
}

/// The fault of p itself.
fn fault_at(p: &Process, parts: &[Uses], words: usize) -> Option<Fault> {
    match p {
        Process::Par(_) => shared(parts, words),
        Process::Count { var, .. } if parts.iter().any(|u| u.changed >> var & 1 == 1) => {
            Some(Fault::Var(*var as usize))
        }
        _ => None,
    }
}

/// What p uses. The fault of the least site goes to `found`; the sites within p begin at `site`.
fn uses(p: &Process, site: &mut usize, words: usize, found: &mut Option<(usize, Fault)>) -> Uses {
    let here = *site;
    *site += 1;
    let parts: Vec<Uses> = p.parts().into_iter().map(|q| uses(q, site, words, found)).collect();
    if let Some(fault) = fault_at(p, &parts, words)
        && found.as_ref().is_none_or(|f| here < f.0)
    {
        *found = Some((here, fault));
    }
    let mut all = Uses::of(p, words);
    parts.iter().for_each(|part| all.add(part));
    all.used |= all.changed;
    all
}

/// The first offence of a node's process, where the network has so many channels.
pub fn offence(process: &Process, channels: usize) -> Option<Fault> {
    let mut found = None;
    uses(process, &mut 0, channels.div_ceil(64), &mut found);
    found.map(|(_, fault)| fault)
}
