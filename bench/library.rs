//! Times bindings/rust over the prefixes and addresses of a file of 32-bit numbers, which bench/library.py writes: how many there
//! are of each, then base and length of each prefix, then the addresses. It prints names and nanoseconds of processor time, each for
//! one prefix or address.
use std::net::Ipv4Addr;
use std::{env, fs};
use yarib::{Command, Error, Fib, Hop, Prefix, Route, Table};

const CHUNK: usize = 4096;

#[repr(C)]
struct Timespec {
    seconds: i64,
    nanoseconds: i64,
}

extern "C" {
    fn clock_gettime(clock: i32, now: *mut Timespec) -> i32;
}

/// The processor time of the process, in seconds.
fn seconds() -> f64 {
    let mut now = Timespec {
        seconds: 0,
        nanoseconds: 0,
    };
    // SAFETY: the C library writes one such struct; 2 is the process's processor time.
    unsafe { clock_gettime(2, &mut now) };
    now.seconds as f64 + now.nanoseconds as f64 / 1e9
}

fn say<T>(name: &str, count: usize, call: impl FnOnce() -> Result<T, Error>) -> Result<T, Error> {
    let from = seconds();
    let made = call()?;
    println!("{name} {:.0}", (seconds() - from) / count as f64 * 1e9);
    Ok(made)
}

fn add(pair: &[u32], k: usize) -> Result<Command, Error> {
    let prefix = Prefix::new(Ipv4Addr::from(pair[0]), pair[1] as u8)?;
    let hop = Hop::Via(Ipv4Addr::from(k as u32));
    Ok(Command::Add(prefix, k as u32, hop))
}

fn apply(mut table: Table, pairs: &[u32]) -> Result<Table, Error> {
    for (k, pair) in pairs.chunks(2).enumerate() {
        table.apply(1, add(pair, k)?)?;
    }
    Ok(table)
}

fn apply_each(mut table: Table, pairs: &[u32]) -> Result<Table, Error> {
    for (chunk, some) in pairs.chunks(2 * CHUNK).enumerate() {
        let commands: Result<Vec<(u32, Command)>, Error> = some
            .chunks(2)
            .enumerate()
            .map(|(k, pair)| Ok((1, add(pair, chunk * CHUNK + k)?)))
            .collect();
        table.apply_each(&commands?)?;
    }
    Ok(table)
}

fn sum(answers: &[Option<Route>]) -> u64 {
    answers.iter().flatten().map(|route| u64::from(u32::from(route.prefix.base())) + u64::from(route.prefix.len())).sum()
}

fn look_up(table: &mut Table, asked: &[u32], size: usize) -> Result<u64, Error> {
    asked
        .chunks(size)
        .map(|some| Ok(sum(&table.look_up_each(some)?)))
        .sum()
}

fn forwarded(forwarding: &mut Fib, asked: &[u32], size: usize) -> Result<u64, Error> {
    asked
        .chunks(size)
        .map(|some| Ok(sum(&forwarding.look_up_each(some)?)))
        .sum()
}

fn main() -> Result<(), Error> {
    let file = env::args().nth(1).expect("a file is named");
    let bytes = fs::read(file).expect("it can be read");
    let word = |four: &[u8]| u32::from_ne_bytes([four[0], four[1], four[2], four[3]]);
    let numbers: Vec<u32> = bytes.chunks_exact(4).map(word).collect();
    let prefixes = numbers[0] as usize;
    let (pairs, asked) = numbers[2..].split_at(2 * prefixes);
    let mut table = say("apply", prefixes, || apply(Table::new(1_000_000)?, pairs))?;
    say("apply_journaled", prefixes, || apply(Table::with_journal(1_000_000)?, pairs))?;
    say("apply_each", prefixes, || apply_each(Table::new(1_000_000)?, pairs))?;
    let found = say("look_up_1", asked.len(), || look_up(&mut table, asked, 1))?;
    let others = [
        say("look_up_256", asked.len(), || look_up(&mut table, asked, 256))?,
        say("look_up_4096", asked.len(), || look_up(&mut table, asked, CHUNK))?,
    ];
    let mut forwarding = say("forward", prefixes, || table.fib_new())?;
    let forwarded = [
        say("forwarding_1", asked.len(), || forwarded(&mut forwarding, asked, 1))?,
        say("forwarding_256", asked.len(), || forwarded(&mut forwarding, asked, 256))?,
        say("forwarding_4096", asked.len(), || forwarded(&mut forwarding, asked, CHUNK))?,
    ];
    assert!(others.iter().chain(&forwarded).all(|sum| *sum == found), "the sums differ");
    println!("sum {found}");
    Ok(())
}
