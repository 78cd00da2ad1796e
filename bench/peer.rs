//! The same program in plain Rust with only std: the baseline for `yarib run`. One thread reads the files in turn, each
//! as a feed. A trie of boxes holds the routes of each prefix, and a list holds the journal. It parses without a crate,
//! and writes its output with one large write.
use std::io::Write;
use std::{env, fs, io, mem};

#[derive(Clone, Copy, PartialEq)]
struct Prefix {
    base: u32,
    len: u8,
}

impl Prefix {
    fn covers(self, address: u32) -> bool {
        u64::from(address) >> (32 - self.len) == u64::from(self.base) >> (32 - self.len)
    }

    fn side(self, address: u32) -> usize {
        (address << self.len >> 31) as usize
    }
}

#[derive(Clone, Copy)]
enum Hop {
    Address(u32),
    Discard,
}

#[derive(Clone, Copy)]
struct Offer {
    feed: u32,
    pref: u32,
    hop: Hop,
}

/// The offers of a prefix by preference and feed.
enum Offers {
    None,
    One(Offer),
    Many(Vec<Offer>),
}

impl Offers {
    fn as_slice(&self) -> &[Offer] {
        match self {
            Offers::None => &[],
            Offers::One(offer) => std::slice::from_ref(offer),
            Offers::Many(offers) => offers,
        }
    }

    fn has(&self, feed: u32) -> bool {
        self.as_slice().iter().any(|offer| offer.feed == feed)
    }

    fn put(&mut self, offer: Offer) {
        let offers = match mem::replace(self, Offers::None) {
            Offers::None => {
                *self = Offers::One(offer);
                return;
            }
            Offers::One(one) => vec![one],
            Offers::Many(offers) => offers,
        };
        let mut offers = offers;
        let place = offers.partition_point(|other| (other.pref, other.feed) < (offer.pref, offer.feed));
        offers.insert(place, offer);
        *self = Offers::Many(offers);
    }

    fn take(&mut self, feed: u32) {
        match self {
            Offers::None => {}
            Offers::One(_) => *self = Offers::None,
            Offers::Many(offers) => {
                offers.retain(|offer| offer.feed != feed);
                if let [one] = offers[..] {
                    *self = Offers::One(one);
                }
            }
        }
    }
}

struct Node {
    prefix: Prefix,
    offers: Offers,
    sides: [Option<Box<Node>>; 2],
}

fn find(mut link: &mut Option<Box<Node>>, p: Prefix) -> Option<&mut Offers> {
    while let Some(node) = link {
        if node.prefix == p {
            return Some(&mut node.offers);
        }
        if node.prefix.len >= p.len || !node.prefix.covers(p.base) {
            return None;
        }
        link = &mut node.sides[node.prefix.side(p.base)];
    }
    None
}

/// The routes of the prefix; inserts an empty node for it if there was none.
fn place(mut link: &mut Option<Box<Node>>, p: Prefix) -> &mut Offers {
    loop {
        let here = link.as_ref().map(|node| node.prefix);
        match here {
            Some(q) if q != p && q.len < p.len && q.covers(p.base) => {
                link = &mut link.as_mut().unwrap().sides[q.side(p.base)];
            }
            Some(q) if q != p => {
                let old = link.take();
                let len = p.len.min(q.len).min((p.base ^ q.base).leading_zeros() as u8);
                let base = (u64::from(p.base) >> (32 - len) << (32 - len)) as u32;
                let fork = Prefix { base, len };
                let mut sides = [None, None];
                sides[fork.side(q.base)] = old;
                *link = Some(Box::new(Node { prefix: fork, offers: Offers::None, sides }));
            }
            Some(_) => return &mut link.as_mut().unwrap().offers,
            None => *link = Some(Box::new(Node { prefix: p, offers: Offers::None, sides: [None, None] })),
        }
    }
}

/// Takes the feed's offer of the prefix out, and the nodes that nothing needs any more.
fn take(link: &mut Option<Box<Node>>, p: Prefix, feed: u32) {
    let Some(node) = link else { return };
    if node.prefix == p {
        node.offers.take(feed);
    } else {
        let side = node.prefix.side(p.base);
        take(&mut node.sides[side], p, feed);
    }
    if node.offers.as_slice().is_empty() && node.sides.iter().any(|side| side.is_none()) {
        let [left, right] = mem::take(&mut node.sides);
        *link = left.or(right);
    }
}

/// Takes all of the feed's offers out in one walk, and the nodes that nothing needs any more; `left` of them are still to come.
fn take_all(link: &mut Option<Box<Node>>, feed: u32, left: &mut usize) {
    let Some(node) = link else { return };
    if *left == 0 {
        return;
    }
    if node.offers.has(feed) {
        node.offers.take(feed);
        *left -= 1;
    }
    node.sides.iter_mut().for_each(|side| take_all(side, feed, left));
    if node.offers.as_slice().is_empty() && node.sides.iter().any(|side| side.is_none()) {
        let [left, right] = mem::take(&mut node.sides);
        *link = left.or(right);
    }
}

fn longest(root: &Option<Box<Node>>, address: u32) -> Option<(Prefix, Offer)> {
    let mut best = None;
    let mut link = root;
    while let Some(node) = link {
        if !node.prefix.covers(address) {
            break;
        }
        if let Some(offer) = node.offers.as_slice().first() {
            best = Some((node.prefix, *offer));
        }
        if node.prefix.len == 32 {
            break;
        }
        link = &node.sides[node.prefix.side(address)];
    }
    best
}

#[derive(Clone, Copy)]
enum Command {
    Add(Prefix, u32, Hop),
    Replace(Prefix, u32, Hop),
    Withdraw(Prefix),
    Lookup(u32),
    Dump,
    Purge,
}

#[derive(Clone, Copy)]
enum Reply {
    Added,
    Exists,
    Full,
    Replaced,
    Withdrawn,
    Missing,
    Found(Prefix, Offer),
    NoRoute,
    Dumped(usize),
    Purged(usize),
}

/// One answered command of the journal, which nobody reads here.
#[allow(dead_code)]
struct Entry {
    feed: u32,
    command: Command,
    reply: Reply,
}

struct Table {
    root: Option<Box<Node>>,
    len: usize,
    limit: usize,
    counts: Vec<usize>,
    journal: Vec<Entry>,
}

impl Table {
    fn apply(&mut self, feed: u32, command: Command) -> Reply {
        let reply = self.answer(feed, command);
        self.journal.push(Entry { feed, command, reply });
        reply
    }

    fn answer(&mut self, feed: u32, command: Command) -> Reply {
        let own = feed as usize - 1;
        match command {
            Command::Add(prefix, pref, hop) => {
                if self.counts[own] >= self.limit {
                    let has = find(&mut self.root, prefix).is_some_and(|offers| offers.has(feed));
                    return if has { Reply::Exists } else { Reply::Full };
                }
                let offers = place(&mut self.root, prefix);
                if offers.has(feed) {
                    return Reply::Exists;
                }
                offers.put(Offer { feed, pref, hop });
                self.counts[own] += 1;
                self.len += 1;
                Reply::Added
            }
            Command::Replace(prefix, pref, hop) => match find(&mut self.root, prefix) {
                Some(offers) if offers.has(feed) => {
                    offers.take(feed);
                    offers.put(Offer { feed, pref, hop });
                    Reply::Replaced
                }
                _ => Reply::Missing,
            },
            Command::Withdraw(prefix) => {
                if !find(&mut self.root, prefix).is_some_and(|offers| offers.has(feed)) {
                    return Reply::Missing;
                }
                take(&mut self.root, prefix, feed);
                self.counts[own] -= 1;
                self.len -= 1;
                Reply::Withdrawn
            }
            Command::Lookup(address) => match longest(&self.root, address) {
                Some((prefix, offer)) => Reply::Found(prefix, offer),
                None => Reply::NoRoute,
            },
            Command::Dump => Reply::Dumped(self.len),
            Command::Purge => {
                let gone = self.counts[own];
                take_all(&mut self.root, feed, &mut self.counts[own]);
                self.len -= gone;
                Reply::Purged(gone)
            }
        }
    }
}

fn decimal(text: &[u8]) -> Option<u64> {
    if text.is_empty() || (text.len() > 1 && text[0] == b'0') {
        return None;
    }
    text.iter().try_fold(0u64, |value, digit| {
        digit.is_ascii_digit().then(|| value.saturating_mul(10).saturating_add(u64::from(digit - b'0')))
    })
}

fn address(text: &[u8]) -> Option<u32> {
    let mut octets = text.split(|byte| *byte == b'.');
    let mut value = 0;
    for _ in 0..4 {
        let octet = decimal(octets.next()?).filter(|octet| *octet < 256)?;
        value = value << 8 | octet as u32;
    }
    octets.next().is_none().then_some(value)
}

fn prefix(text: &[u8]) -> Result<Prefix, &'static str> {
    let slash = text.iter().position(|byte| *byte == b'/').ok_or("E3")?;
    let base = address(&text[..slash]).ok_or("E3")?;
    let len = decimal(&text[slash + 1..]).ok_or("E3")?;
    if len > 32 {
        return Err("E4");
    }
    if u64::from(base) % (1u64 << (32 - len)) != 0 {
        return Err("E5");
    }
    Ok(Prefix { base, len: len as u8 })
}

fn hop(text: &[u8], is_second: bool) -> Option<Hop> {
    if is_second && text == b"discard" {
        return Some(Hop::Discard);
    }
    address(text).map(Hop::Address)
}

fn parse(line: &[u8], is_second: bool) -> Result<Command, &'static str> {
    if line.len() > 128 {
        return Err("E8");
    }
    let mut words = line.split(|byte| *byte == b' ');
    let mut fields = [&line[..0]; 5];
    let count = fields.iter_mut().zip(words.by_ref()).map(|(field, word)| *field = word).count();
    match &fields[..count] {
        [word @ (b"add" | b"replace"), at, pref, to] => {
            let prefix = prefix(at)?;
            let pref = decimal(pref).filter(|pref| *pref < 1 << 32).ok_or("E6")? as u32;
            let hop = hop(to, is_second).ok_or("E7")?;
            Ok(if word == b"add" { Command::Add(prefix, pref, hop) } else { Command::Replace(prefix, pref, hop) })
        }
        [b"withdraw", at] => Ok(Command::Withdraw(prefix(at)?)),
        [b"lookup", at] => Ok(Command::Lookup(address(at).ok_or("E3")?)),
        [b"dump"] => Ok(Command::Dump),
        [b"purge"] if is_second => Ok(Command::Purge),
        [b"purge", ..] if is_second => Err("E2"),
        [b"add" | b"replace" | b"withdraw" | b"lookup" | b"dump", ..] => Err("E2"),
        _ => Err("E1"),
    }
}

fn show_address(out: &mut Vec<u8>, address: u32) {
    let [a, b, c, d] = address.to_be_bytes();
    write!(out, "{a}.{b}.{c}.{d}").unwrap();
}

fn show_route(out: &mut Vec<u8>, prefix: Prefix, offer: Offer) {
    show_address(out, prefix.base);
    write!(out, "/{} feed {} pref {} via ", prefix.len, offer.feed, offer.pref).unwrap();
    match offer.hop {
        Hop::Address(hop) => show_address(out, hop),
        Hop::Discard => out.extend_from_slice(b"discard"),
    }
}

fn show_reply(out: &mut Vec<u8>, reply: Reply) {
    let word: &[u8] = match reply {
        Reply::Added => b"added",
        Reply::Exists => b"exists",
        Reply::Full => b"full",
        Reply::Replaced => b"replaced",
        Reply::Withdrawn => b"withdrawn",
        Reply::Missing => b"missing",
        Reply::NoRoute => b"no route",
        Reply::Found(prefix, offer) => {
            out.extend_from_slice(b"route ");
            return show_route(out, prefix, offer);
        }
        Reply::Dumped(count) => return write!(out, "dumped {count}").unwrap(),
        Reply::Purged(count) => return write!(out, "purged {count}").unwrap(),
    };
    out.extend_from_slice(word);
}

fn show_table(out: &mut Vec<u8>, link: &Option<Box<Node>>) {
    let Some(node) = link else { return };
    for offer in node.offers.as_slice() {
        show_route(out, node.prefix, *offer);
        out.push(b'\n');
    }
    node.sides.iter().for_each(|side| show_table(out, side));
}

fn main() -> io::Result<()> {
    let texts = env::args().skip(1).map(fs::read).collect::<io::Result<Vec<_>>>()?;
    let counts = vec![0; texts.len()];
    let mut table = Table { root: None, len: 0, limit: 1_000_000, counts, journal: Vec::new() };
    let mut out = Vec::new();
    for (feed, text) in (1..).zip(&texts) {
        let whole = text.strip_suffix(b"\n").unwrap_or(text);
        let is_second = whole.split(|byte| *byte == b'\n').next() == Some(b"version 2");
        for (number, line) in (1..).zip(whole.split(|byte| *byte == b'\n')).skip(usize::from(is_second)) {
            if line.is_empty() || line[0] == b'#' && line.len() <= 128 {
                continue;
            }
            write!(out, "{feed}:{number} ")?;
            match parse(line, is_second) {
                Ok(command) => show_reply(&mut out, table.apply(feed, command)),
                Err(fault) => write!(out, "fault {fault}")?,
            }
            out.push(b'\n');
        }
    }
    writeln!(out, "table {}", table.len)?;
    show_table(&mut out, &table.root);
    io::stdout().write_all(&out)
}
