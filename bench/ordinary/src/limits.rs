//! The limits of a plan, refusal 1.

use crate::plan::{Cond, End, Expr, Plan, Process, Spot, SwitchPlan, Value};
use std::collections::HashSet;

fn depth_of_expr(e: &Expr) -> u32 {
    match e {
        Expr::Bin(_, both) => 1 + depth_of_expr(&both.0).max(depth_of_expr(&both.1)),
        _ => 1,
    }
}

fn depth_of_cond(c: &Cond) -> u32 {
    match c {
        Cond::Always(_) => 1,
        Cond::Cmp(_, left, right) => 1 + depth_of_expr(left).max(depth_of_expr(right)),
        Cond::And(both) | Cond::Or(both) => 1 + depth_of_cond(&both.0).max(depth_of_cond(&both.1)),
        Cond::Not(c) => 1 + depth_of_cond(c),
    }
}

fn depth(p: &Process) -> u32 {
    1 + p.parts().into_iter().map(depth).max().unwrap_or(0)
}

/// The greatest depth of an expression or condition that stands in p itself.
fn deepest(p: &Process) -> u32 {
    match p {
        Process::Set {
            value: Value::Int(e), ..
        }
        | Process::Send {
            value: Value::Int(e), ..
        } => depth_of_expr(e),
        Process::If(branches) => branches.iter().map(|b| depth_of_cond(&b.0)).max().unwrap_or(0),
        Process::While { cond, .. } => depth_of_cond(cond),
        Process::Count { base, count, .. } => depth_of_expr(base).max(depth_of_expr(count)),
        Process::Alt(guards) => guards.iter().map(|g| depth_of_cond(&g.cond)).max().unwrap_or(0),
        _ => 0,
    }
}

fn ends(plan: &Plan) -> impl Iterator<Item = &End> {
    plan.vlinks.iter().flat_map(|v| [&v.a, &v.b])
}

/// A link is 0 to 3 at a node, and 0 to 31 at a switch.
fn has_bad_link(plan: &Plan) -> bool {
    let most = |spot| if let Spot::Node(_) = spot { 3 } else { 31 };
    plan.wires.iter().flatten().any(|p| p.link > most(p.spot)) || ends(plan).any(|e| e.link > 3)
}

/// A random input puts one of 1 to 64 headers, and each input is named once.
fn has_bad_random(switch: &SwitchPlan) -> bool {
    let mut seen = HashSet::new();
    switch
        .random
        .iter()
        .any(|&(link, lower, limit)| lower >= limit || limit - lower > 64 || !seen.insert(link))
}

fn is_too_deep(process: &Process) -> bool {
    depth(process) > 32 || process.preorder().into_iter().any(|p| deepest(p) > 8)
}

/// The first limit that the plan breaks, but for those that no file breaks.
pub fn broken_limit(plan: &Plan) -> Option<&'static str> {
    let limits = [
        ("nodes", plan.nodes.len() > 32),
        ("switches", plan.switches.len() > 32),
        ("wires", plan.wires.len() > 256),
        ("vlinks", plan.vlinks.len() > 256),
        ("channels", plan.channels.len() > 512),
        ("vars", plan.nodes.iter().any(|n| n.vars.len() > 64)),
        ("rows", plan.switches.iter().any(|s| s.rows.len() > 64)),
        ("route", ends(plan).any(|e| !(1..=4).contains(&e.route.len()))),
        ("link", has_bad_link(plan)),
        ("random", plan.switches.iter().any(has_bad_random)),
        ("depth", plan.nodes.iter().any(|n| is_too_deep(&n.process))),
        ("parts", plan.nodes.iter().any(|n| n.process.preorder().len() > 4096)),
    ];
    limits.into_iter().find(|limit| limit.1).map(|limit| limit.0)
}
