//! The checker: refusals 1 to 13 of a plan that was read.

use crate::limits::broken_limit;
use crate::paths::Roads;
use crate::plan::{Action, End, Home, NodePlan, Plan, Port, Process, Row, Spot};
use crate::usage::{Fault, offence};
use std::collections::{HashMap, HashSet};

/// The port at the other end of each port's wire.
fn wires(plan: &Plan) -> Result<HashMap<Port, Port>, String> {
    let mut other = HashMap::new();
    for &[one, two] in &plan.wires {
        for (p, q) in [(one, two), (two, one)] {
            if other.insert(p, q).is_some() {
                return Err(format!("refused 2 PortTwice {}.{}", plan.spot_name(p.spot), p.link));
            }
        }
    }
    Ok(other)
}

fn check_ends(plan: &Plan, other: &HashMap<Port, Port>) -> Result<(), String> {
    let ends = || plan.vlinks.iter().flat_map(|v| [&v.a, &v.b]);
    let name = |e: &End| &plan.nodes[e.node].name;
    let port = |e: &End| Port {
        spot: Spot::Node(e.node),
        link: e.link,
    };
    if let Some(e) = ends().find(|e| !other.contains_key(&port(e))) {
        return Err(format!("refused 3 PortMissing {}.{}", name(e), e.link));
    }
    let mut blocks = HashSet::new();
    match ends().find(|e| !blocks.insert((e.node, e.block))) {
        Some(e) => Err(format!("refused 4 BlockTwice {} {}", name(e), e.block)),
        None => Ok(()),
    }
}

/// What is wrong with the first row that is wrong, wires apart.
fn row_fault(rows: &[Row]) -> Option<&'static str> {
    let mut before = None;
    for row in rows {
        if row.lower >= row.limit || row.limit > 65536 || before.is_some_and(|b| row.lower < b) {
            return Some("NotRising");
        }
        if before.is_some_and(|b| row.lower > b) {
            return Some("Gap");
        }
        if let Action::Out { first, last } = row.action
            && first > last
        {
            return Some("BadLink");
        }
        before = Some(row.limit);
    }
    None
}

fn check_tables(plan: &Plan, other: &HashMap<Port, Port>) -> Result<(), String> {
    for (i, switch) in plan.switches.iter().enumerate() {
        let spot = Spot::Switch(i);
        let is_wired = |row: &Row| match row.action {
            Action::Out { first, last } => (first..=last).all(|link| other.contains_key(&Port { spot, link })),
            Action::Portal => true,
        };
        let unwired = || (!switch.rows.iter().all(is_wired)).then_some("BadLink");
        if let Some(fault) = row_fault(&switch.rows).or_else(unwired) {
            return Err(format!("refused 5 Table {} {fault}", switch.name));
        }
    }
    Ok(())
}

fn check_paths(plan: &Plan, other: &HashMap<Port, Port>) -> Result<(), String> {
    const NAMES: [&str; 5] = ["NoInterval", "WrongEnd", "StackEmpty", "StackFull", "Hops"];
    let roads = Roads::new(plan, other);
    for v in &plan.vlinks {
        for (way, from, to) in [("ab", &v.a, &v.b), ("ba", &v.b, &v.a)] {
            if let Some((number, path)) = roads.fault(from, to) {
                let name = NAMES[number as usize - 6];
                return Err(format!("refused {number} {name} {} {way} {path}", v.name));
            }
        }
    }
    match plan.vlinks.iter().find(|v| v.a.node == v.b.node) {
        Some(v) => Err(format!("refused 11 SameNode {}", v.name)),
        None => Ok(()),
    }
}

/// The nodes that output and input on a channel.
fn nodes_of(plan: &Plan, chan: usize) -> (usize, usize) {
    match plan.channels[chan].home {
        Home::Inside { node } => (node, node),
        Home::Way { vlink, from_a } => {
            let (from, to) = plan.ends_of(vlink, from_a);
            (from.node, to.node)
        }
    }
}

/// The first channel on which the process of the i-th node makes what its node does not.
fn strange_channel(plan: &Plan, i: usize, node: &NodePlan) -> Option<usize> {
    let outputs = |chan: usize| nodes_of(plan, chan).0 == i;
    let inputs = |chan: usize| nodes_of(plan, chan).1 == i;
    node.process.preorder().into_iter().find_map(|p| match p {
        Process::Send { chan, .. } => (!outputs(*chan)).then_some(*chan),
        Process::Receive { chan, .. } | Process::Stopch { chan } => (!inputs(*chan)).then_some(*chan),
        Process::Alt(guards) => guards.iter().map(|g| g.chan).find(|&chan| !inputs(chan)),
        _ => None,
    })
}

fn check_channels(plan: &Plan) -> Result<(), String> {
    let mut ways = HashSet::new();
    let twice = plan.channels.iter().position(|chan| match chan.home {
        Home::Way { vlink, from_a } => !ways.insert((vlink, from_a)),
        Home::Inside { .. } => false,
    });
    let mut nodes = plan.nodes.iter().enumerate();
    match twice.or_else(|| nodes.find_map(|(i, node)| strange_channel(plan, i, node))) {
        Some(chan) => Err(format!("refused 12 Channel {}", plan.channels[chan].name)),
        None => Ok(()),
    }
}

fn check_usage(plan: &Plan) -> Result<(), String> {
    for node in &plan.nodes {
        let name = match offence(&node.process, plan.channels.len()) {
            Some(Fault::Chan(chan)) => &plan.channels[chan].name,
            Some(Fault::Var(var)) => &node.vars[var].0,
            None => continue,
        };
        return Err(format!("refused 13 Usage {} {name}", node.name));
    }
    Ok(())
}

/// The line of the first refusal.
pub fn check(plan: &Plan) -> Result<(), String> {
    if let Some(word) = broken_limit(plan) {
        return Err(format!("refused 1 Limit {word}"));
    }
    let other = wires(plan)?;
    check_ends(plan, &other)?;
    check_tables(plan, &other)?;
    check_paths(plan, &other)?;
    check_channels(plan)?;
    check_usage(plan)
}
