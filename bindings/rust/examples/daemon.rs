//! A daemon's life: it loads routes, changes others while threads look up, saves them, and after a restart compares.
use std::net::Ipv4Addr;
use std::sync::atomic::{AtomicBool, AtomicU32, Ordering};
use std::thread;
use yarib::{Answer, By, Command, ConcurrentTable, Error, FileError, Hop, Reply, Table, MAX_LIMIT};

const TRANSIT: u32 = 1;
const PEER: u32 = 2;
const CHANGES: u8 = 100;
const ROUTES: &[u8] = b"version 2\nadd 10.0.0.0/8 10 192.0.2.1\nadd 10.2.0.0/16 10 discard\n";

/// Gives both routes of the peer another router at once.
fn change(table: &ConcurrentTable, k: u8) -> Result<(), Error> {
    let hop = Hop::Via(Ipv4Addr::new(192, 0, 2, 100 + k));
    let prefixes = ["10.1.0.0/16".parse()?, "10.3.0.0/16".parse()?];
    let commands = prefixes.map(|prefix| match k {
        0 => (PEER, Command::Add(prefix, 0, hop)),
        _ => (PEER, Command::Replace(prefix, 0, hop)),
    });
    for outcome in table.apply_each(&commands)? {
        assert!(matches!(outcome?, Reply::Added | Reply::Replaced));
    }
    Ok(())
}

/// Looks two addresses up, in the table and in a view of it, and returns whether both have the same router.
fn agree(table: &ConcurrentTable) -> Result<bool, Error> {
    let (addresses, mut hops, mut numbers) = ([0x0a01_0001, 0x0a03_0001], [0; 2], [0; 2]);
    table.hops(&addresses, 0, 1, &mut hops)?;
    table.view_new()?.look_up_each(&addresses, &mut numbers)?;
    Ok(hops[0] == hops[1] && numbers[0] == numbers[1])
}

/// Loads the transit's routes, changes the peer's while two threads look up, and returns the peer's file.
fn serve() -> Result<Vec<u8>, FileError> {
    let table = ConcurrentTable::new(MAX_LIMIT)?;
    println!("loaded {} routes", table.load(TRANSIT, ROUTES)?);
    table.fib_attach()?;
    let (is_ended, disagreed) = (AtomicBool::new(false), AtomicU32::new(0));
    let read = || -> Result<(), Error> {
        while !is_ended.load(Ordering::Relaxed) {
            if !agree(&table)? {
                disagreed.fetch_add(1, Ordering::Relaxed);
            }
        }
        Ok(())
    };
    thread::scope(|scope| {
        let readers = [scope.spawn(read), scope.spawn(read)];
        let changed = (0..CHANGES).try_for_each(|k| change(&table, k));
        is_ended.store(true, Ordering::Relaxed);
        for reader in readers {
            reader.join().expect("a reader doesn't panic")?;
        }
        changed
    })?;
    let count = disagreed.into_inner();
    println!("{CHANGES} changes, {count} answers from two tables");
    let mut file = Vec::new();
    table.save(PEER, &mut file)?;
    Ok(file)
}

/// Returns a table with the routes of these files, each of another feed.
fn restored(files: &[&[u8]]) -> Result<Table, FileError> {
    let mut table = Table::new(MAX_LIMIT)?;
    for (feed, file) in (TRANSIT..).zip(files) {
        table.load(feed, *file)?;
    }
    Ok(table)
}

fn shown(answer: Answer) -> String {
    match answer {
        Answer::Hop(hop) => hop.to_string(),
        _ => "no route".to_string(),
    }
}

fn main() -> Result<(), FileError> {
    let file = serve()?;
    let (before, after) = (restored(&[ROUTES])?, restored(&[ROUTES, &file])?);
    println!("restored {} routes", after.count()?);
    for range in before.differences(&after, By::Hop) {
        let range = range?;
        let (old, new) = (shown(range.before), shown(range.after));
        println!("{} to {}: from {old} to {new}", range.first, range.last);
    }
    Ok(())
}
