//! The reader of a network file: refusals 20 to 24. Each function reads one value of the file, and is handed the path to it.

use crate::json::{Json, parse};
use crate::plan::{
    Action, BytesExpr, Channel, Cond, End, Expr, Guard, Home, Kind, NodePlan, Op, Plan, Port, Process, Rel, Row, Spot,
    SwitchPlan, Value, Vlink,
};
use std::collections::HashMap;
use std::fmt::Write;

/// A path from the top, kept on the stack.
#[derive(Clone, Copy)]
enum Path<'a> {
    Top,
    Field(&'a Path<'a>, &'a str),
    Index(&'a Path<'a>, usize),
}

impl<'a> Path<'a> {
    fn field(&'a self, name: &'a str) -> Path<'a> {
        Path::Field(self, name)
    }

    fn index(&'a self, k: usize) -> Path<'a> {
        Path::Index(self, k)
    }

    fn write(&self, out: &mut String) {
        match self {
            Path::Top => {}
            Path::Field(up, name) => {
                up.write(out);
                let _ = write!(out, "/{name}");
            }
            Path::Index(up, k) => {
                up.write(out);
                let _ = write!(out, "/{k}");
            }
        }
    }
}

/// What was read, or the line of the refusal.
type Read<T> = Result<T, String>;

fn refuse<T>(number: u32, path: Path) -> Read<T> {
    let name = ["Json", "Missing", "Kind", "Range", "Unknown"][number as usize - 20];
    let mut text = format!("refused {number} {name} ");
    if matches!(path, Path::Top) {
        text.push('/');
    }
    path.write(&mut text);
    Err(text)
}

// Values of any kind.

fn object<'v>(v: &'v Json, path: Path, known: &[&str]) -> Read<&'v Json> {
    let Json::Object(fields) = v else {
        return refuse(22, path);
    };
    if fields.iter().any(|(name, _)| !known.contains(&name.as_str())) {
        return refuse(24, path);
    }
    Ok(v)
}

/// The one field of an object that has one.
fn only_field<'v>(v: &'v Json, path: Path) -> Read<(&'v str, &'v Json)> {
    match v {
        Json::Object(fields) => match fields.as_slice() {
            [(name, value)] => Ok((name, value)),
            _ => refuse(22, path),
        },
        _ => refuse(22, path),
    }
}

fn field<'v>(v: &'v Json, name: &str, path: Path) -> Read<&'v Json> {
    match v.get(name) {
        Some(value) => Ok(value),
        None => refuse(21, path.field(name)),
    }
}

fn list<'v>(v: &'v Json, path: Path) -> Read<&'v [Json]> {
    match v {
        Json::List(values) => Ok(values),
        _ => refuse(22, path),
    }
}

fn row<'v>(v: &'v Json, n: usize, path: Path) -> Read<&'v [Json]> {
    let values = list(v, path)?;
    if values.len() == n {
        Ok(values)
    } else {
        refuse(22, path)
    }
}

/// The list in a field that may be absent, and is then empty.
fn optional<'v>(v: &'v Json, name: &str, path: Path) -> Read<&'v [Json]> {
    match v.get(name) {
        Some(value) => list(value, path.field(name)),
        None => Ok(&[]),
    }
}

/// Reads each value of a list.
fn each<T>(values: &[Json], path: Path, mut read: impl FnMut(&Json, Path) -> Read<T>) -> Read<Vec<T>> {
    values
        .iter()
        .enumerate()
        .map(|(k, value)| read(value, path.index(k)))
        .collect()
}

fn whole(v: &Json, least: i128, most: i128, path: Path) -> Read<i128> {
    match v {
        Json::Int(n) if (least..=most).contains(n) => Ok(*n),
        Json::Int(_) => refuse(23, path),
        _ => refuse(22, path),
    }
}

fn header(v: &Json, path: Path) -> Read<u16> {
    Ok(whole(v, 0, 65535, path)? as u16)
}

/// The limit of a range of headers.
fn limit(v: &Json, path: Path) -> Read<u32> {
    Ok(whole(v, 0, 65536, path)? as u32)
}

fn link(v: &Json, path: Path) -> Read<u8> {
    Ok(whole(v, 0, 31, path)? as u8)
}

fn text<'v>(v: &'v Json, path: Path) -> Read<&'v str> {
    match v {
        Json::Text(s) => Ok(s),
        _ => refuse(22, path),
    }
}

fn word<'v>(v: &'v Json, words: &[&str], path: Path) -> Read<&'v str> {
    let s = text(v, path)?;
    if words.contains(&s) { Ok(s) } else { refuse(22, path) }
}

fn kind(v: &Json, path: Path) -> Read<Kind> {
    Ok(match word(v, &["int", "bytes"], path)? {
        "int" => Kind::Int,
        _ => Kind::Bytes,
    })
}

// Names.

fn is_name(s: &str) -> bool {
    (1..=16).contains(&s.len())
        && s.as_bytes()[0].is_ascii_alphabetic()
        && s.bytes().all(|c| c.is_ascii_alphanumeric() || c == b'_' || c == b'-')
}

fn new_name<T>(v: &Json, before: &HashMap<String, T>, path: Path) -> Read<String> {
    let s = text(v, path)?;
    if !is_name(s) || before.contains_key(s) {
        return refuse(22, path);
    }
    Ok(s.to_string())
}

fn known<T: Copy>(v: &Json, names: &HashMap<String, T>, path: Path) -> Read<T> {
    match names.get(text(v, path)?) {
        Some(found) => Ok(*found),
        None => refuse(24, path),
    }
}

/// The variables of a node by name, each with its number and kind.
type Vars = HashMap<String, (u16, Kind)>;

/// What the names of a network mean, as far as it was read.
#[derive(Default)]
struct Names {
    places: HashMap<String, Spot>,
    nodes: HashMap<String, usize>,
    vlinks: HashMap<String, usize>,
    channels: HashMap<String, usize>,
}

// The parts of a network.

fn variables(o: &Json, path: Path) -> Read<(Vec<(String, Kind)>, Vars)> {
    let mut names = Vars::new();
    let vars = each(optional(o, "vars", path)?, path.field("vars"), |v, here| {
        let pair = row(v, 2, here)?;
        let name = new_name(&pair[0], &names, here.index(0))?;
        let kind = kind(&pair[1], here.index(1))?;
        let number = names.len().min(u16::MAX as usize) as u16;
        names.insert(name.clone(), (number, kind));
        Ok((name, kind))
    })?;
    Ok((vars, names))
}

/// A node without its process, which is read last, with what its variables' names mean.
fn node(o: &Json, path: Path, names: &mut Names) -> Read<(NodePlan, Vars)> {
    object(o, path, &["name", "vars", "process"])?;
    let name = new_name(field(o, "name", path)?, &names.nodes, path.field("name"))?;
    names.places.insert(name.clone(), Spot::Node(names.nodes.len()));
    names.nodes.insert(name.clone(), names.nodes.len());
    let (vars, found) = variables(o, path)?;
    let process = Process::Skip;
    Ok((NodePlan { name, vars, process }, found))
}

fn table_row(v: &Json, path: Path, version: u8) -> Read<Row> {
    let values = list(v, path)?;
    let is_portal = values.len() == 3 && version == 2;
    if values.len() != 4 && !is_portal {
        return refuse(22, path);
    }
    let lower = header(&values[0], path.index(0))? as u32;
    let limit = limit(&values[1], path.index(1))?;
    let action = if is_portal {
        word(&values[2], &["portal"], path.index(2))?;
        Action::Portal
    } else {
        let first = link(&values[2], path.index(2))?;
        let last = link(&values[3], path.index(3))?;
        Action::Out { first, last }
    };
    Ok(Row { lower, limit, action })
}

fn random_input(v: &Json, path: Path) -> Read<(u8, u32, u32)> {
    let values = row(v, 3, path)?;
    let link = link(&values[0], path.index(0))?;
    let lower = header(&values[1], path.index(1))? as u32;
    Ok((link, lower, limit(&values[2], path.index(2))?))
}

fn switch(o: &Json, path: Path, version: u8, names: &mut Names) -> Read<SwitchPlan> {
    let fields: &[&str] = match version {
        2 => &["name", "table", "delete", "random"],
        _ => &["name", "table", "delete"],
    };
    object(o, path, fields)?;
    let name = new_name(field(o, "name", path)?, &names.places, path.field("name"))?;
    let number = names.places.len() - names.nodes.len();
    names.places.insert(name.clone(), Spot::Switch(number));
    let at = path.field("table");
    let rows = each(list(field(o, "table", path)?, at)?, at, |v, here| {
        table_row(v, here, version)
    })?;
    let delete = each(optional(o, "delete", path)?, path.field("delete"), link)?;
    let random = each(optional(o, "random", path)?, path.field("random"), random_input)?;
    Ok(SwitchPlan {
        name,
        rows,
        delete,
        random,
    })
}

fn port(values: &[Json], k: usize, path: Path, names: &Names) -> Read<Port> {
    let spot = known(&values[k], &names.places, path.index(k))?;
    let link = link(&values[k + 1], path.index(k + 1))?;
    Ok(Port { spot, link })
}

fn wire(v: &Json, path: Path, names: &Names) -> Read<[Port; 2]> {
    let values = row(v, 4, path)?;
    Ok([port(values, 0, path, names)?, port(values, 2, path, names)?])
}

fn end(v: &Json, path: Path, names: &Names) -> Read<End> {
    let values = row(v, 4, path)?;
    let node = known(&values[0], &names.nodes, path.index(0))?;
    let link = link(&values[1], path.index(1))?;
    let block = header(&values[2], path.index(2))?;
    let at = path.index(3);
    let route = each(list(&values[3], at)?, at, header)?;
    Ok(End {
        node,
        link,
        block,
        route,
    })
}

fn vlink(o: &Json, path: Path, names: &mut Names) -> Read<Vlink> {
    object(o, path, &["name", "a", "b"])?;
    let name = new_name(field(o, "name", path)?, &names.vlinks, path.field("name"))?;
    names.vlinks.insert(name.clone(), names.vlinks.len());
    let a = end(field(o, "a", path)?, path.field("a"), names)?;
    let b = end(field(o, "b", path)?, path.field("b"), names)?;
    Ok(Vlink { name, a, b })
}

fn channel(o: &Json, path: Path, names: &mut Names) -> Read<Channel> {
    let is_inside = o.get("node").is_some();
    let fields: &[&str] = match is_inside {
        true => &["name", "kind", "node"],
        false => &["name", "kind", "vlink", "way"],
    };
    object(o, path, fields)?;
    let name = new_name(field(o, "name", path)?, &names.channels, path.field("name"))?;
    names.channels.insert(name.clone(), names.channels.len());
    let kind = kind(field(o, "kind", path)?, path.field("kind"))?;
    let home = if is_inside {
        let node = known(field(o, "node", path)?, &names.nodes, path.field("node"))?;
        Home::Inside { node }
    } else {
        let vlink = known(field(o, "vlink", path)?, &names.vlinks, path.field("vlink"))?;
        let way = word(field(o, "way", path)?, &["ab", "ba"], path.field("way"))?;
        let from_a = way == "ab";
        Home::Way { vlink, from_a }
    };
    Ok(Channel { name, kind, home })
}

/// The plan of a network file, or the line of its first fault.
pub fn read_network(data: &[u8]) -> Read<Plan> {
    let v = parse(data).map_err(|_| String::from("refused 20 Json"))?;
    let top = Path::Top;
    object(
        &v,
        top,
        &["version", "nodes", "switches", "wires", "vlinks", "channels"],
    )?;
    let version = whole(field(&v, "version", top)?, 1, 2, top.field("version"))? as u8;
    let names = &mut Names::default();
    let part = |name| optional(&v, name, top);
    let at = top.field("nodes");
    let objects = list(field(&v, "nodes", top)?, at)?;
    let heads = each(objects, at, |o, here| node(o, here, names))?;
    let switches = each(part("switches")?, top.field("switches"), |o, here| {
        switch(o, here, version, names)
    })?;
    let wires = each(part("wires")?, top.field("wires"), |o, here| wire(o, here, names))?;
    let vlinks = each(part("vlinks")?, top.field("vlinks"), |o, here| vlink(o, here, names))?;
    let channels = each(part("channels")?, top.field("channels"), |o, here| {
        channel(o, here, names)
    })?;
    let mut nodes = Vec::new();
    for (k, (mut node, vars)) in heads.into_iter().enumerate() {
        let here = at.index(k);
        let scope = Scope {
            names: &names.channels,
            channels: &channels,
            vars: &vars,
        };
        node.process = scope.process(field(&objects[k], "process", here)?, here.field("process"))?;
        nodes.push(node);
    }
    Ok(Plan {
        nodes,
        switches,
        wires,
        vlinks,
        channels,
    })
}

// Processes, expressions and conditions.

/// What the names in a process mean.
struct Scope<'a> {
    names: &'a HashMap<String, usize>,
    channels: &'a [Channel],
    vars: &'a Vars,
}

impl Scope<'_> {
    fn var(&self, v: &Json, kind: Kind, path: Path) -> Read<u16> {
        let (number, of) = known(v, self.vars, path)?;
        if of == kind { Ok(number) } else { refuse(22, path) }
    }

    fn chan(&self, v: &Json, path: Path) -> Read<usize> {
        known(v, self.names, path)
    }

    /// A channel, and a variable of its kind.
    fn input(&self, values: &[Json], k: usize, path: Path) -> Read<(usize, u16)> {
        let chan = self.chan(&values[k], path.index(k))?;
        let var = self.var(&values[k + 1], self.channels[chan].kind, path.index(k + 1))?;
        Ok((chan, var))
    }

    fn process(&self, v: &Json, path: Path) -> Read<Process> {
        if let Json::Text(_) = v {
            return Ok(match word(v, &["skip", "stop"], path)? {
                "skip" => Process::Skip,
                _ => Process::Stop,
            });
        }
        let (name, body) = only_field(v, path)?;
        let at = path.field(name);
        match name {
            "set" => self.assignment(body, at),
            "out" => self.output(body, at),
            "in" => {
                let (chan, var) = self.input(row(body, 2, at)?, 0, at)?;
                Ok(Process::Receive { chan, var })
            }
            "stopch" => self.chan(body, at).map(|chan| Process::Stopch { chan }),
            "seq" => self.parts(body, at).map(Process::Seq),
            "par" => self.parts(body, at).map(Process::Par),
            "if" => each(list(body, at)?, at, |v, here| self.branch(v, here)).map(Process::If),
            "while" => {
                let (cond, body) = self.branch(body, at)?;
                let body = Box::new(body);
                Ok(Process::While { cond, body })
            }
            "for" => self.count(body, at),
            "alt" => each(list(body, at)?, at, |v, here| self.guard(v, here)).map(Process::Alt),
            _ => refuse(24, path),
        }
    }

    fn parts(&self, v: &Json, path: Path) -> Read<Vec<Process>> {
        each(list(v, path)?, path, |v, here| self.process(v, here))
    }

    fn assignment(&self, v: &Json, path: Path) -> Read<Process> {
        let values = row(v, 2, path)?;
        let (var, kind) = known(&values[0], self.vars, path.index(0))?;
        let value = self.value(&values[1], kind, path.index(1))?;
        Ok(Process::Set { var, value })
    }

    fn output(&self, v: &Json, path: Path) -> Read<Process> {
        let values = row(v, 2, path)?;
        let chan = self.chan(&values[0], path.index(0))?;
        let value = self.value(&values[1], self.channels[chan].kind, path.index(1))?;
        Ok(Process::Send { chan, value })
    }

    /// A condition, and a process.
    fn branch(&self, v: &Json, path: Path) -> Read<(Cond, Process)> {
        let values = row(v, 2, path)?;
        let cond = self.cond(&values[0], path.index(0))?;
        Ok((cond, self.process(&values[1], path.index(1))?))
    }

    fn count(&self, v: &Json, path: Path) -> Read<Process> {
        let values = row(v, 4, path)?;
        let var = self.var(&values[0], Kind::Int, path.index(0))?;
        let base = self.expr(&values[1], path.index(1))?;
        let count = self.expr(&values[2], path.index(2))?;
        let body = Box::new(self.process(&values[3], path.index(3))?);
        Ok(Process::Count { var, base, count, body })
    }

    fn guard(&self, v: &Json, path: Path) -> Read<Guard> {
        let values = row(v, 4, path)?;
        let cond = self.cond(&values[0], path.index(0))?;
        let (chan, var) = self.input(values, 1, path)?;
        let body = self.process(&values[3], path.index(3))?;
        Ok(Guard { cond, chan, var, body })
    }

    fn value(&self, v: &Json, kind: Kind, path: Path) -> Read<Value> {
        Ok(match kind {
            Kind::Int => Value::Int(self.expr(v, path)?),
            Kind::Bytes => Value::Bytes(self.bytes(v, path)?),
        })
    }

    fn expr(&self, v: &Json, path: Path) -> Read<Expr> {
        const WORDS: [(&str, usize); 6] = [("+", 3), ("-", 3), ("*", 3), ("/", 3), ("\\", 3), ("size", 2)];
        let values = match v {
            Json::Text(_) => return Ok(Expr::Var(self.var(v, Kind::Int, path)?)),
            Json::List(values) => values,
            _ => return Ok(Expr::Num(whole(v, i64::MIN as i128, i64::MAX as i128, path)? as i64)),
        };
        let op = match operator(values, &WORDS, path)? {
            "+" => Op::Add,
            "-" => Op::Sub,
            "*" => Op::Mul,
            "/" => Op::Div,
            "\\" => Op::Rem,
            _ => return Ok(Expr::Size(self.var(&values[1], Kind::Bytes, path.index(1))?)),
        };
        let left = self.expr(&values[1], path.index(1))?;
        let right = self.expr(&values[2], path.index(2))?;
        Ok(Expr::Bin(op, Box::new((left, right))))
    }

    fn cond(&self, v: &Json, path: Path) -> Read<Cond> {
        if let Json::Bool(b) = v {
            return Ok(Cond::Always(*b));
        }
        let values = list(v, path)?;
        let word = operator(values, &CONDITIONS, path)?;
        if word == "not" {
            return Ok(Cond::Not(Box::new(self.cond(&values[1], path.index(1))?)));
        }
        if word == "and" || word == "or" {
            let left = self.cond(&values[1], path.index(1))?;
            let both = Box::new((left, self.cond(&values[2], path.index(2))?));
            return Ok(if word == "and" { Cond::And(both) } else { Cond::Or(both) });
        }
        let rel = match word {
            "=" => Rel::Eq,
            "<>" => Rel::Ne,
            "<" => Rel::Lt,
            ">" => Rel::Gt,
            "<=" => Rel::Le,
            _ => Rel::Ge,
        };
        let left = self.expr(&values[1], path.index(1))?;
        Ok(Cond::Cmp(rel, left, self.expr(&values[2], path.index(2))?))
    }

    fn bytes(&self, v: &Json, path: Path) -> Read<BytesExpr> {
        if let Json::Text(_) = v {
            return Ok(BytesExpr::Var(self.var(v, Kind::Bytes, path)?));
        }
        let (name, body) = only_field(v, path)?;
        let at = path.field(name);
        match name {
            "hex" => hex(text(body, at)?.as_bytes(), at).map(BytesExpr::Lit),
            "text" if text(body, at)?.len() > 65535 => refuse(23, at),
            "text" => Ok(BytesExpr::Lit(text(body, at)?.as_bytes().to_vec())),
            "fill" => {
                let values = row(body, 2, at)?;
                let byte = whole(&values[0], 0, 255, at.index(0))? as u8;
                let count = whole(&values[1], 0, 65535, at.index(1))? as u32;
                Ok(BytesExpr::Fill { byte, count })
            }
            _ => refuse(24, path),
        }
    }
}

/// The words of conditions, each with the length of its list.
const CONDITIONS: [(&str, usize); 9] = [
    ("=", 3),
    ("<>", 3),
    ("<", 3),
    (">", 3),
    ("<=", 3),
    (">=", 3),
    ("and", 3),
    ("or", 3),
    ("not", 2),
];

/// The word of a list that is an expression or a condition, known with the list's length.
fn operator<'v>(values: &'v [Json], words: &[(&str, usize)], path: Path) -> Read<&'v str> {
    let Some(first) = values.first() else {
        return refuse(22, path);
    };
    let Json::Text(s) = first else {
        return refuse(22, path.index(0));
    };
    match words.iter().find(|word| word.0 == s) {
        None => refuse(22, path.index(0)),
        Some(word) if word.1 != values.len() => refuse(22, path),
        Some(_) => Ok(s),
    }
}

/// The bytes of pairs of lower-case digits.
fn hex(digits: &[u8], path: Path) -> Read<Vec<u8>> {
    let digit = |c: u8| match c {
        b'0'..=b'9' => Some(c - b'0'),
        b'a'..=b'f' => Some(c - b'a' + 10),
        _ => None,
    };
    let pair = |p: &[u8]| Some(digit(p[0])? * 16 + digit(*p.get(1)?)?);
    match digits.chunks(2).map(pair).collect::<Option<Vec<u8>>>() {
        None => refuse(22, path),
        Some(bytes) if bytes.len() > 65535 => refuse(23, path),
        Some(bytes) => Ok(bytes),
    }
}
