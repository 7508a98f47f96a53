//! A node: its link ends, the two halves of its virtual links' ends, and its process.

use crate::core::*;
use crate::plan::{self, Channel, Home, Kind, Plan, Process, Value};
use crate::process::{Code, Env, Site, SiteSet};
use std::collections::VecDeque;

struct Link {
    buffer: Buffer,
    credit: u8,
    /// The packet that is coming.
    in_len: u8,
    in_body: [u8; 48],
    /// The packet that is going: its mark comes after out_len bytes.
    out_len: u8,
    out_at: u8,
    sending: bool,
    out_mark: Token,
    out_body: [u8; 48],
    /// The packets to send: an end's number twice, and 1 more for an acknowledge.
    queue: VecDeque<u16>,
}

/// One end of a virtual link.
struct End {
    link: u8,
    head_len: u8,
    head: [u8; 8],
    out_chan: u16,
    in_chan: u16,
    // the half that sends the last message of out_chan's log
    busy: bool,
    out_site: u16,
    /// Where the unacknowledged piece begins, and where the message ends, in the log.
    piece: usize,
    limit: usize,
    // the half that takes
    want_site: u16,
    want_guard: u16,
    held: bool,
    held_last: bool,
    held_len: u8,
    held_body: [u8; 32],
}

struct Chan {
    number: u16,
    kind: Kind,
    inside: bool,
    sends: bool,
    stopped: bool,
    end: u16,
    /// The site that stands at an ALT with a true guard on it, or, inside, at an input.
    reader: u16,
    /// Inside: the site that stands at an output.
    sender: u16,
    finished: u64,
    offered: Log,
    taken: Log,
}

/// What a node knows of a channel at the end.
pub struct Side {
    pub chan: usize,
    /// The node outputs on it, so `offered` and `finished` count.
    pub sends: bool,
    pub offered: usize,
    pub finished: u64,
    /// Where the node inputs on it.
    pub taken: Option<Log>,
    pub stopped: bool,
}

#[repr(align(128))] // each is the work of one thread
pub struct Node {
    links: [Link; 4],
    passable: u32,
    puttable: u32,
    grantable: u32,
    ends: Vec<End>,
    end_of_block: Vec<u16>,
    chans: Vec<Chan>,
    code: Code,
    env: Env,
    ready: SiteSet,
    last_site: usize,
    /// A PAR's parts that still run; a counted SEQ's turns still to come.
    left: Vec<u64>,
    ended: bool,
    pub strays: u64,
}

impl Link {
    fn new(ends: usize) -> Link {
        Link {
            buffer: Buffer::new(),
            credit: 0,
            in_len: 0,
            in_body: [0; 48],
            out_len: 0,
            out_at: 0,
            sending: false,
            out_mark: Token::Eop,
            out_body: [0; 48],
            queue: VecDeque::with_capacity(2 * ends),
        }
    }
}

impl End {
    fn new(end: &plan::End) -> End {
        let mut head = [0; 8];
        for (two, header) in head.chunks_mut(2).zip(&end.route) {
            two.copy_from_slice(&header.to_be_bytes());
        }
        End {
            link: end.link,
            head_len: 2 * end.route.len() as u8,
            head,
            out_chan: NONE,
            in_chan: NONE,
            busy: false,
            out_site: NONE,
            piece: 0,
            limit: 0,
            want_site: NONE,
            want_guard: NONE,
            held: false,
            held_last: false,
            held_len: 0,
            held_body: [0; 32],
        }
    }
}

impl Chan {
    fn new(number: usize, kind: Kind, end: u16, sends: bool) -> Chan {
        Chan {
            number: number as u16,
            kind,
            inside: end == NONE,
            sends,
            stopped: false,
            end,
            reader: NONE,
            sender: NONE,
            finished: 0,
            offered: Log::new(kind),
            taken: Log::new(kind),
        }
    }
}

/// A node's ends, and which of them each block is.
#[derive(Default)]
struct Ends {
    all: Vec<End>,
    of_block: Vec<u16>,
    /// The ends of each virtual link at this node, a and b.
    of_vlink: Vec<[u16; 2]>,
}

impl Ends {
    fn of(plan: &Plan, node: usize) -> Ends {
        let mut ends = Ends::default();
        for vlink in &plan.vlinks {
            let of_vlink = [&vlink.a, &vlink.b].map(|end| if end.node == node { ends.add(end) } else { NONE });
            ends.of_vlink.push(of_vlink);
        }
        ends
    }

    fn add(&mut self, end: &plan::End) -> u16 {
        let (block, number) = (end.block as usize, self.all.len() as u16);
        if self.of_block.len() <= block {
            self.of_block.resize(block + 1, NONE);
        }
        self.of_block[block] = number;
        self.all.push(End::new(end));
        number
    }

    /// The channel as the node knows it, where it is one of the node's.
    fn channel(&mut self, number: usize, channel: &Channel, node: usize, here: u16) -> Option<Chan> {
        let new = |end, sends| Some(Chan::new(number, channel.kind, end, sends));
        match channel.home {
            Home::Inside { node: at } if at == node => new(NONE, true),
            Home::Inside { .. } => None,
            Home::Way { vlink, from_a } => {
                let [a, b] = self.of_vlink[vlink];
                let (from, to) = if from_a { (a, b) } else { (b, a) };
                if from != NONE {
                    self.all[from as usize].out_chan = here;
                    return new(from, true);
                }
                if to != NONE {
                    self.all[to as usize].in_chan = here;
                    return new(to, false);
                }
                None
            }
        }
    }
}

impl Node {
    pub fn new(plan: &Plan, i: usize, process: Process, wired: u32) -> Node {
        let mut ends = Ends::of(plan, i);
        let mut chans = Vec::new();
        let mut local = vec![NONE; plan.channels.len()];
        for (c, channel) in plan.channels.iter().enumerate() {
            let here = chans.len() as u16;
            if let Some(chan) = ends.channel(c, channel, i, here) {
                local[c] = here;
                chans.push(chan);
            }
        }
        let code = Code::new(process, &mut |c| local[c]);
        let sites = code.sites.len();
        let mut node = Node {
            links: std::array::from_fn(|l| Link::new(ends.all.iter().filter(|e| e.link as usize == l).count())),
            passable: 0,
            puttable: 0,
            grantable: wired,
            ends: ends.all,
            end_of_block: ends.of_block,
            chans,
            code,
            env: Env::new(&plan.nodes[i].vars),
            ready: SiteSet::new(sites),
            last_site: usize::MAX,
            left: vec![0; sites],
            ended: false,
            strays: 0,
        };
        node.begin(0);
        node
    }

    /// What the node knows of its channels.
    pub fn sides(self) -> impl Iterator<Item = Side> {
        self.chans.into_iter().map(|c| Side {
            chan: c.number as usize,
            finished: c.finished,
            stopped: c.stopped,
            offered: if c.inside { c.taken.count() } else { c.offered.count() },
            sends: c.sends,
            taken: (c.inside || !c.sends).then_some(c.taken),
        })
    }

    // ------------------------------------------------------------------ control

    /// The process at the site begins, as far as it has no move.
    fn begin(&mut self, mut site: u16) {
        while let Site::Seq { first } = &self.code.sites[site as usize] {
            site = *first;
        }
        match &self.code.sites[site as usize] {
            Site::Par { parts } => {
                let n = parts.len();
                self.left[site as usize] = n as u64;
                for k in 0..n {
                    if let Site::Par { parts } = &self.code.sites[site as usize] {
                        let part = parts[k];
                        self.begin(part);
                    }
                }
            }
            Site::Stop => {}
            Site::Send { chan, .. } if self.chans[*chan as usize].inside => self.begin_send(site),
            Site::Receive { chan, .. } => {
                let chan = *chan;
                self.begin_receive(site, chan);
            }
            Site::Alt(_) => self.begin_alt(site),
            _ => self.ready.set(site),
        }
    }

    /// An output inside the node has a move where an input waits, or where its expression is a fault.
    fn begin_send(&mut self, site: u16) {
        let Site::Send { chan, value } = &self.code.sites[site as usize] else {
            return;
        };
        if let Value::Int(e) = value
            && self.env.int(e).is_none()
        {
            self.ready.set(site);
            return;
        }
        let c = &mut self.chans[*chan as usize];
        c.sender = site;
        if c.reader != NONE && !c.stopped {
            self.ready.set(site);
        }
    }

    fn begin_receive(&mut self, site: u16, chan: u16) {
        let c = &mut self.chans[chan as usize];
        if c.stopped {
            return;
        }
        if !c.inside {
            self.ready.set(site);
            return;
        }
        c.reader = site;
        if c.sender != NONE {
            self.ready.set(c.sender);
        }
    }

    /// An ALT stands at each guard that is open, unless a condition is a fault.
    fn begin_alt(&mut self, site: u16) {
        let Site::Alt(guards) = &self.code.sites[site as usize] else {
            return;
        };
        if guards.iter().any(|g| self.env.cond(&g.cond).is_none()) {
            return;
        }
        for g in guards {
            let c = &mut self.chans[g.chan as usize];
            if c.stopped || self.env.cond(&g.cond) != Some(true) {
                continue;
            }
            c.reader = site;
            if c.inside {
                if c.sender != NONE {
                    self.ready.set(c.sender);
                }
            } else if self.ends[c.end as usize].held {
                self.ready.set(site);
            }
        }
    }

    /// The site has ended; what stands round it goes on.
    fn end(&mut self, mut site: u16) {
        loop {
            let up = self.code.ups[site as usize];
            if up.next != NONE {
                return self.begin(up.next);
            }
            site = up.parent;
            if site == NONE {
                self.ended = true;
                return;
            }
            match &self.code.sites[site as usize] {
                Site::Par { .. } => {
                    let left = &mut self.left[site as usize];
                    *left -= 1;
                    if *left > 0 {
                        return;
                    }
                }
                Site::While { .. } => {
                    self.ready.set(site);
                    return;
                }
                Site::Count { var, body, .. } => {
                    let left = &mut self.left[site as usize];
                    if *left > 0 {
                        *left -= 1;
                        self.env.ints[*var as usize] += 1;
                        let body = *body;
                        return self.begin(body);
                    }
                }
                _ => {}
            }
        }
    }

    /// An ALT no longer stands at its guards.
    fn leave_alt(&mut self, site: u16) {
        if let Site::Alt(guards) = &self.code.sites[site as usize] {
            for g in guards {
                let c = &mut self.chans[g.chan as usize];
                if c.reader == site {
                    c.reader = NONE;
                    if c.sender != NONE {
                        self.ready.clear(c.sender);
                    }
                }
            }
            self.ready.clear(site);
        }
    }

    /// The last message of the channel's log reaches the input or the ALT at `site`.
    fn got(&mut self, site: u16, guard: u16, chan: u16) {
        let c = &self.chans[chan as usize];
        match &self.code.sites[site as usize] {
            Site::Receive { var, .. } => {
                self.env.got(*var, c.kind, c.taken.last());
                self.end(site);
            }
            Site::Alt(guards) => {
                let g = &guards[guard as usize];
                self.env.got(g.var, c.kind, c.taken.last());
                let body = g.body;
                self.begin(body);
            }
            _ => {}
        }
    }

    // ------------------------------------------------------------------ moves

    /// The move of a site that is ready.
    fn step(&mut self, site: u16) -> Act {
        self.last_site = site as usize;
        self.ready.clear(site);
        match &self.code.sites[site as usize] {
            Site::Send { .. } => self.send(site),
            Site::Receive { chan, .. } => {
                let chan = *chan;
                self.want(site, NONE, chan);
                let chan = self.chans[chan as usize].number;
                Act::Want { site, chan }
            }
            Site::Stopch { chan } => {
                let c = &mut self.chans[*chan as usize];
                c.stopped = true;
                let chan = c.number;
                if c.inside && c.sender != NONE {
                    self.ready.clear(c.sender);
                }
                self.end(site);
                Act::Stopch { site, chan }
            }
            Site::Alt(_) => self.choose(site),
            _ => {
                self.quiet(site);
                Act::Quiet { site }
            }
        }
    }

    /// An output begins: its message is logged, and its first piece queued.
    #[inline]
    fn send(&mut self, site: u16) -> Act {
        let Site::Send { chan, value } = &self.code.sites[site as usize] else {
            return Act::Quiet { site };
        };
        let chan = *chan;
        let c = &mut self.chans[chan as usize];
        if c.inside {
            return self.inner(site, chan);
        }
        let start = c.offered.data.len();
        if self.env.message(value, &mut c.offered.data).is_none() {
            return Act::Quiet { site };
        }
        c.offered.close();
        let e = &mut self.ends[c.end as usize];
        e.busy = true;
        e.out_site = site;
        e.piece = start;
        e.limit = c.offered.data.len();
        let (chan, end) = (c.number, c.end);
        self.queue(end, false);
        Act::Offer { site, chan }
    }

    /// An ALT takes the first guard at which a packet is held.
    fn choose(&mut self, site: u16) -> Act {
        let Site::Alt(guards) = &self.code.sites[site as usize] else {
            return Act::Quiet { site };
        };
        let found = guards.iter().position(|g| {
            let c = &self.chans[g.chan as usize];
            c.reader == site && !c.inside && self.ends[c.end as usize].held && self.env.cond(&g.cond) == Some(true)
        });
        let guard = found.unwrap_or(0) as u16;
        let chan = guards[guard as usize].chan;
        self.leave_alt(site);
        self.want(site, guard, chan);
        let chan = self.chans[chan as usize].number;
        Act::Choose { site, guard, chan }
    }

    /// A step of a site without a communication.
    #[inline]
    fn quiet(&mut self, site: u16) {
        match &self.code.sites[site as usize] {
            Site::SetInt { var, value } => {
                if let Some(n) = self.env.int(value) {
                    self.env.ints[*var as usize] = n;
                    self.end(site);
                }
            }
            Site::SetBytes { var, value } => {
                self.env.set_bytes(*var, value);
                self.end(site);
            }
            Site::If(branches) => {
                for (c, body) in branches {
                    match self.env.cond(c) {
                        Some(false) => {}
                        Some(true) => {
                            let body = *body;
                            return self.begin(body);
                        }
                        None => return,
                    }
                }
            }
            Site::While { cond, body } => match self.env.cond(cond) {
                Some(true) => {
                    let body = *body;
                    self.begin(body)
                }
                Some(false) => self.end(site),
                None => {}
            },
            Site::Count { .. } => {
                let _ = self.begin_count(site);
            }
            _ => self.end(site),
        }
    }

    /// A replicated SEQ begins its first turn; None at a fault.
    fn begin_count(&mut self, site: u16) -> Option<()> {
        let Site::Count { var, base, count, body } = &self.code.sites[site as usize] else {
            return None;
        };
        let base = self.env.int(base)?;
        let turns = u64::try_from(self.env.int(count)?).ok()?;
        if turns == 0 {
            self.end(site);
            return Some(());
        }
        base.checked_add_unsigned(turns - 1)?;
        self.env.ints[*var as usize] = base;
        self.left[site as usize] = turns - 1;
        let body = *body;
        self.begin(body);
        Some(())
    }

    /// An output inside the node that has a move: its expression's fault, or the meeting.
    fn inner(&mut self, site: u16, chan: u16) -> Act {
        let c = &mut self.chans[chan as usize];
        if c.sender != site {
            return Act::Quiet { site }; // it faulted when it began
        }
        let reader = c.reader;
        let Site::Send { value, .. } = &self.code.sites[site as usize] else {
            return Act::Quiet { site };
        };
        // offered and taken are one log here
        let _ = self.env.message(value, &mut c.taken.data);
        c.taken.close();
        c.finished += 1;
        c.sender = NONE;
        let number = c.number;
        let mut guard = NONE;
        if let Site::Alt(guards) = &self.code.sites[reader as usize] {
            let found = guards
                .iter()
                .position(|g| g.chan == chan && self.env.cond(&g.cond) == Some(true));
            guard = found.unwrap_or(0) as u16;
            self.leave_alt(reader);
        }
        self.chans[chan as usize].reader = NONE;
        self.got(reader, guard, chan);
        self.end(site);
        Act::Inner {
            sender: site,
            receiver: reader,
            guard,
            chan: number,
        }
    }

    // ------------------------------------------------------------------ packets

    /// Queues the end's piece, or an acknowledge.
    fn queue(&mut self, end: u16, ack: bool) {
        let link = self.ends[end as usize].link as usize;
        let l = &mut self.links[link];
        l.queue.push_back(2 * end + ack as u16);
        if l.credit > 0 {
            self.puttable |= bit(link);
        }
    }

    /// A process inputs on the channel: a held packet is stored, else it waits.
    fn want(&mut self, site: u16, guard: u16, chan: u16) {
        let end = self.chans[chan as usize].end;
        let e = &mut self.ends[end as usize];
        if e.held {
            e.held = false;
            let c = &mut self.chans[chan as usize];
            c.taken.data.extend_from_slice(&e.held_body[..e.held_len as usize]);
            let last = e.held_last;
            self.queue(end, true);
            if last {
                self.chans[chan as usize].taken.close();
                return self.got(site, guard, chan);
            }
        }
        let e = &mut self.ends[end as usize];
        e.want_site = site;
        e.want_guard = guard;
    }

    /// The packet that came by the link is whole: it is for one of the halves, or a stray.
    fn arrive(&mut self, link: usize, eom: bool) {
        let l = &mut self.links[link];
        let len = l.in_len as usize;
        l.in_len = 0;
        let block = u16::from_be_bytes([l.in_body[0], l.in_body[1]]) as usize;
        let known = self.end_of_block.get(block).filter(|&&e| e != NONE && len >= 2);
        let is_for_a_half = match known {
            Some(&end) if len == 2 && !eom => self.acked(end),
            Some(&end) => self.store(end, link, len, eom),
            None => false,
        };
        if !is_for_a_half {
            self.strays += 1;
        }
    }

    /// An acknowledge: the next piece goes, or the output is finished. It is a stray where nothing is unacknowledged.
    #[inline]
    fn acked(&mut self, end: u16) -> bool {
        let e = &mut self.ends[end as usize];
        if !e.busy {
            return false;
        }
        if e.limit - e.piece > 32 {
            e.piece += 32;
            self.queue(end, false);
        } else {
            e.busy = false;
            let site = e.out_site;
            self.chans[e.out_chan as usize].finished += 1;
            self.end(site);
        }
        true
    }

    /// A piece is stored where a process inputs, and else held. It is a stray where one is held, or where it has no lawful length.
    #[inline]
    fn store(&mut self, end: u16, link: usize, len: usize, eom: bool) -> bool {
        let e = &mut self.ends[end as usize];
        let data = &self.links[link].in_body[2..len];
        if data.len() > 32 || (!eom && data.len() != 32) || e.held || e.in_chan == NONE {
            return false;
        }
        let chan = e.in_chan;
        let c = &mut self.chans[chan as usize];
        if e.want_site == NONE {
            e.held = true;
            e.held_last = eom;
            e.held_len = data.len() as u8;
            e.held_body[..data.len()].copy_from_slice(data);
            if c.reader != NONE {
                self.ready.set(c.reader);
            }
            return true;
        }
        c.taken.data.extend_from_slice(data);
        let (site, guard) = (e.want_site, e.want_guard);
        if eom {
            e.want_site = NONE;
            c.taken.close();
        }
        self.queue(end, true);
        if eom {
            self.got(site, guard, chan);
        }
        true
    }

    #[inline]
    fn pass(&mut self, link: usize) {
        let l = &mut self.links[link];
        let token = l.buffer.pop();
        if l.buffer.is_empty() {
            self.passable &= !bit(link);
        }
        if l.buffer.may_grant() {
            self.grantable |= bit(link);
        }
        match token {
            Token::Byte(b) => {
                if (l.in_len as usize) < l.in_body.len() {
                    l.in_body[l.in_len as usize] = b;
                    l.in_len += 1;
                }
            }
            mark => self.arrive(link, mark == Token::Eom),
        }
    }

    /// Makes the next packet of the link's queue ready to be put.
    fn load(&mut self, link: usize) {
        let l = &mut self.links[link];
        let Some(which) = l.queue.pop_front() else {
            return;
        };
        let e = &self.ends[which as usize / 2];
        l.out_body[..8].copy_from_slice(&e.head);
        let mut n = e.head_len as usize;
        l.out_mark = Token::Eop;
        if which % 2 == 0 {
            let piece = (e.limit - e.piece).min(32);
            let from = &self.chans[e.out_chan as usize].offered.data[e.piece..e.piece + piece];
            l.out_body[n..n + piece].copy_from_slice(from);
            n += piece;
            if e.piece + piece == e.limit {
                l.out_mark = Token::Eom;
            }
        }
        l.out_len = n as u8;
        l.out_at = 0;
        l.sending = true;
    }

    #[inline]
    fn put(&mut self, link: usize) -> Token {
        if !self.links[link].sending {
            self.load(link);
        }
        let l = &mut self.links[link];
        l.credit -= 1;
        let token = if l.out_at < l.out_len {
            l.out_at += 1;
            Token::Byte(l.out_body[l.out_at as usize - 1])
        } else {
            l.sending = false;
            l.out_mark
        };
        if l.credit == 0 || (!l.sending && l.queue.is_empty()) {
            self.puttable &= !bit(link);
        }
        token
    }
}

impl Node {
    /// It has an act that isn't a take.
    pub fn may_act(&self) -> bool {
        self.passable | self.puttable | self.grantable != 0 || !self.ready.is_empty()
    }
}

impl Agent for Node {
    #[inline]
    fn take(&mut self, link: usize, token: Token, _word: u32) {
        let l = &mut self.links[link];
        if token == Token::Fct {
            l.credit += 8;
            if l.sending || !l.queue.is_empty() {
                self.puttable |= bit(link);
            }
        } else {
            l.buffer.push(token);
            self.passable |= bit(link);
        }
    }

    #[inline]
    fn turn(&mut self, mut room: impl FnMut(usize) -> bool) -> Turn {
        if self.passable != 0 {
            let link = self.passable.trailing_zeros() as usize;
            self.pass(link);
            return Turn::Local(Act::Pass { link: link as u8 });
        }
        if let Some(link) = links(self.puttable).find(|&link| room(link)) {
            let token = self.put(link);
            let act = Act::Put { link: link as u8 };
            return Turn::Put { link, act, token };
        }
        if let Some(link) = links(self.grantable).find(|&link| room(link)) {
            self.links[link].buffer.grant();
            set_bit(&mut self.grantable, link, self.links[link].buffer.may_grant());
            return Turn::grant(link);
        }
        match self.ready.next(self.last_site.wrapping_add(1)) {
            Some(site) => Turn::Local(self.step(site)),
            None => Turn::Idle,
        }
    }

    fn ended(&self) -> bool {
        self.ended
    }
}
