//! The plan of a network.

#[derive(Clone, Copy, PartialEq, Eq, Hash, Debug)]
pub enum Spot {
    Node(usize),
    Switch(usize),
}

#[derive(Clone, Copy, PartialEq, Eq, Hash, Debug)]
pub struct Port {
    pub spot: Spot,
    pub link: u8,
}

#[derive(Clone, Copy, PartialEq, Eq)]
pub enum Kind {
    Int,
    Bytes,
}

#[derive(Clone, Copy, PartialEq, Eq)]
pub enum Action {
    Out { first: u8, last: u8 },
    Portal,
}

pub struct Row {
    pub lower: u32,
    pub limit: u32,
    pub action: Action,
}

pub struct NodePlan {
    pub name: String,
    pub vars: Vec<(String, Kind)>,
    pub process: Process,
}

pub struct SwitchPlan {
    pub name: String,
    pub rows: Vec<Row>,
    pub delete: Vec<u8>,
    pub random: Vec<(u8, u32, u32)>,
}

pub struct End {
    pub node: usize,
    pub link: u8,
    pub block: u16,
    pub route: Vec<u16>,
}

pub struct Vlink {
    pub name: String,
    pub a: End,
    pub b: End,
}

#[derive(Clone, Copy)]
pub enum Home {
    Way { vlink: usize, from_a: bool },
    Inside { node: usize },
}

pub struct Channel {
    pub name: String,
    pub kind: Kind,
    pub home: Home,
}

pub struct Plan {
    pub nodes: Vec<NodePlan>,
    pub switches: Vec<SwitchPlan>,
    pub wires: Vec<[Port; 2]>,
    pub vlinks: Vec<Vlink>,
    pub channels: Vec<Channel>,
}

impl Plan {
    pub fn spot_name(&self, spot: Spot) -> &str {
        match spot {
            Spot::Node(i) => &self.nodes[i].name,
            Spot::Switch(i) => &self.switches[i].name,
        }
    }

    /// The ends that send and take on a channel of a virtual link.
    pub fn ends_of(&self, vlink: usize, from_a: bool) -> (&End, &End) {
        let v = &self.vlinks[vlink];
        if from_a { (&v.a, &v.b) } else { (&v.b, &v.a) }
    }
}

pub enum Process {
    Skip,
    Stop,
    Set {
        var: u16,
        value: Value,
    },
    Send {
        chan: usize,
        value: Value,
    },
    Receive {
        chan: usize,
        var: u16,
    },
    Stopch {
        chan: usize,
    },
    Seq(Vec<Process>),
    Par(Vec<Process>),
    If(Vec<(Cond, Process)>),
    While {
        cond: Cond,
        body: Box<Process>,
    },
    Count {
        var: u16,
        base: Expr,
        count: Expr,
        body: Box<Process>,
    },
    Alt(Vec<Guard>),
}

pub struct Guard {
    pub cond: Cond,
    pub chan: usize,
    pub var: u16,
    pub body: Process,
}

pub enum Value {
    Int(Expr),
    Bytes(BytesExpr),
}

pub enum BytesExpr {
    Lit(Vec<u8>),
    Var(u16),
    Fill { byte: u8, count: u32 },
}

#[derive(Clone, Copy, PartialEq, Eq)]
pub enum Op {
    Add,
    Sub,
    Mul,
    Div,
    Rem,
}

#[derive(Clone, Copy, PartialEq, Eq)]
pub enum Rel {
    Eq,
    Ne,
    Lt,
    Gt,
    Le,
    Ge,
}

pub enum Expr {
    Num(i64),
    Var(u16),
    Bin(Op, Box<(Expr, Expr)>),
    Size(u16),
}

pub enum Cond {
    Always(bool),
    Cmp(Rel, Expr, Expr),
    And(Box<(Cond, Cond)>),
    Or(Box<(Cond, Cond)>),
    Not(Box<Cond>),
}

impl Process {
    pub fn parts(&self) -> Vec<&Process> {
        match self {
            Process::Seq(ps) | Process::Par(ps) => ps.iter().collect(),
            Process::If(bs) => bs.iter().map(|b| &b.1).collect(),
            Process::While { body, .. } | Process::Count { body, .. } => vec![body],
            Process::Alt(gs) => gs.iter().map(|g| &g.body).collect(),
            _ => Vec::new(),
        }
    }

    /// It and all processes within it, by site.
    pub fn preorder(&self) -> Vec<&Process> {
        let mut all = vec![self];
        for part in self.parts() {
            all.extend(part.preorder());
        }
        all
    }
}
