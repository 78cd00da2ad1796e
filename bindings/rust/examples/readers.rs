//! One thread changes two routes at once, a hundred times, while two threads look both up.
use std::net::Ipv4Addr;
use std::sync::atomic::{AtomicBool, AtomicU32, Ordering};
use std::thread;
use yarib::{Command, ConcurrentTable, Error, Hop};

fn main() -> Result<(), Error> {
    let prefixes = ["10.0.0.0/8".parse()?, "11.0.0.0/8".parse()?];
    let router = |k| Hop::Via(Ipv4Addr::new(192, 0, 2, k));
    let table = ConcurrentTable::new(1_000)?;
    table.apply_each(&prefixes.map(|prefix| (1, Command::Add(prefix, 0, router(0)))))?;
    let (is_ended, disagreed) = (AtomicBool::new(false), AtomicU32::new(0));
    let look_up = || -> Result<(), Error> {
        while !is_ended.load(Ordering::Relaxed) {
            let answers = table.look_up_each(&[0x0a00_0001, 0x0b00_0001])?;
            let hops: Vec<_> = answers.iter().flatten().map(|route| route.hop).collect();
            if hops.len() != 2 || hops[0] != hops[1] {
                disagreed.fetch_add(1, Ordering::Relaxed);
            }
        }
        Ok(())
    };
    let changed = thread::scope(|scope| {
        let readers = [scope.spawn(look_up), scope.spawn(look_up)];
        let change = |k| {
            let both = prefixes.map(|prefix| (1, Command::Replace(prefix, 0, router(k))));
            table.apply_each(&both).map(|_| ())
        };
        let changed = (1..=100).try_for_each(change);
        is_ended.store(true, Ordering::Relaxed);
        for reader in readers {
            reader.join().expect("a reader doesn't panic")?;
        }
        changed
    });
    changed?;
    println!(
        "100 changes, {} answers from two tables",
        disagreed.into_inner()
    );
    Ok(())
}
