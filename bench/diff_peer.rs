//! The same comparison in plain Rust with only std: the baseline for `yarib diff`. Its arguments are an old feed file
//! and a new one, with only `add` lines. It sorts each table's prefixes, goes over both in order with a stack of the
//! open prefixes, and prints the ranges of addresses with different answers. On standard error it prints the
//! nanoseconds of reading and sorting, and those of comparing and printing.
use std::io::{self, Write};
use std::net::Ipv4Addr;
use std::time::Instant;
use std::{env, fs};

#[derive(Clone, Copy)]
struct Route {
    first: u32,
    len: u8,
    preference: u32,
    hop: u32,
}

impl Route {
    fn parse(line: &str) -> Option<Route> {
        let mut fields = line.split(' ').skip(1);
        let (address, len) = fields.next()?.split_once('/')?;
        let preference = fields.next()?.parse().ok()?;
        let hop = fields.next()?.parse::<Ipv4Addr>().ok()?;
        let first = address.parse::<Ipv4Addr>().ok()?;
        Some(Route { first: first.into(), len: len.parse().ok()?, preference, hop: hop.into() })
    }

    fn last(&self) -> u32 {
        self.first | u32::MAX.checked_shr(self.len.into()).unwrap_or(0)
    }
}

/// The best route of each prefix, by base and length.
fn table(name: &str) -> io::Result<Vec<Route>> {
    let text = fs::read_to_string(name)?;
    let mut routes: Vec<Route> = text.lines().filter_map(Route::parse).collect();
    routes.sort_by_key(|route| (route.first, route.len, route.preference));
    routes.dedup_by_key(|route| (route.first, route.len));
    Ok(routes)
}

/// From an address on, this next hop, or none.
type Piece = (u32, Option<u32>);

/// The addresses from which on the table has another next hop, each with that next hop.
fn pieces(routes: &[Route]) -> Vec<Piece> {
    let mut pieces = vec![(0, None)];
    let mut open: Vec<&Route> = Vec::new();
    let mut put = |first: u32, hop: Option<u32>| match pieces.last_mut() {
        Some(piece) if piece.0 == first => piece.1 = hop,
        _ => pieces.push((first, hop)),
    };
    for route in routes {
        while let Some(ended) = open.pop_if(|inner| inner.last() < route.first) {
            put(ended.last() + 1, open.last().map(|outer| outer.hop));
        }
        put(route.first, Some(route.hop));
        open.push(route);
    }
    while let Some(ended) = open.pop() {
        if let Some(behind) = ended.last().checked_add(1) {
            put(behind, open.last().map(|outer| outer.hop));
        }
    }
    pieces
}

fn said(hop: Option<u32>) -> String {
    hop.map_or("no route".to_string(), |hop| format!("via {}", Ipv4Addr::from(hop)))
}

/// Writes the ranges for which the two answers differ.
fn compare(old: &[Piece], new: &[Piece], out: &mut impl Write) -> io::Result<()> {
    let (mut at_old, mut at_new) = (0, 0);
    let mut begun = (0, old[0].1, new[0].1);
    let mut tell = |(first, from, to): (u32, Option<u32>, Option<u32>), last: u32| {
        if from == to {
            return Ok(());
        }
        writeln!(out, "{}-{} {} -> {}", Ipv4Addr::from(first), Ipv4Addr::from(last), said(from), said(to))
    };
    loop {
        let next = |pieces: &[Piece], at: usize| pieces.get(at + 1).map(|piece| piece.0);
        let Some(first) = next(old, at_old).into_iter().chain(next(new, at_new)).min() else {
            return tell(begun, u32::MAX);
        };
        at_old += usize::from(next(old, at_old) == Some(first));
        at_new += usize::from(next(new, at_new) == Some(first));
        let here = (first, old[at_old].1, new[at_new].1);
        if (here.1, here.2) != (begun.1, begun.2) {
            tell(begun, first - 1)?;
            begun = here;
        }
    }
}

fn main() -> io::Result<()> {
    let names: Vec<String> = env::args().skip(1).collect();
    let start = Instant::now();
    let (old, new) = (table(&names[0])?, table(&names[1])?);
    let loaded = start.elapsed();
    let mut out = io::BufWriter::new(io::stdout().lock());
    compare(&pieces(&old), &pieces(&new), &mut out)?;
    out.flush()?;
    eprintln!("{} {}", loaded.as_nanos(), (start.elapsed() - loaded).as_nanos());
    Ok(())
}
