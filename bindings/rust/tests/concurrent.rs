//! Threads that read a concurrent table while one changes it.
//!
//! Table k has routes to `PREFIXES` prefixes, all with the next hop k. If k is odd, each prefix also has a longer one in it.
mod routes;

use routes::{line, route};
use std::net::Ipv4Addr;
use std::sync::atomic::{AtomicBool, AtomicU32, Ordering};
use std::sync::Barrier;
use std::thread;
use yarib::{
    Answer, By, Command, ConcurrentTable, Error, Hop, Part, Prefix, Reply, Route, Selection,
    Source, Table,
};

const PREFIXES: u32 = 64;
const CHANGES: u32 = 100;

fn prefix(k: u32, len: u8) -> Prefix {
    Prefix::new(Ipv4Addr::from(k << 24), len).unwrap()
}

fn via(k: u32) -> Hop {
    Hop::Via(Ipv4Addr::from(k))
}

/// Publishes table k.
fn publish(table: &ConcurrentTable, k: u32) {
    let mut commands = Vec::new();
    for j in 0..PREFIXES {
        let wide = prefix(j, 8);
        let narrow = prefix(j, 16);
        commands.push((
            1,
            match k {
                0 => Command::Add(wide, 0, via(k)),
                _ => Command::Replace(wide, 0, via(k)),
            },
        ));
        commands.push((
            1,
            match k % 2 {
                1 => Command::Add(narrow, 0, via(k)),
                _ => Command::Withdraw(narrow),
            },
        ));
    }
    assert!(table
        .apply_each(&commands)
        .unwrap()
        .iter()
        .all(Result::is_ok));
}

/// Returns the routes of table k, in order.
fn published(k: u32) -> Vec<Route> {
    let lengths: &[u8] = if k % 2 == 1 { &[8, 16] } else { &[8] };
    let published = |j, len| route(prefix(j, len), 1, 0, via(k));
    (0..PREFIXES)
        .flat_map(|j| lengths.iter().map(move |len| published(j, *len)))
        .collect()
}

fn number(route: &Route) -> u32 {
    match route.hop {
        Hop::Via(router) => u32::from(router),
        Hop::Discard => u32::MAX,
    }
}

/// What is found in the table of a number.
type InTable = Box<dyn Fn(u32) -> Vec<Route>>;

/// Reads in one of several ways, and returns what was found and what would be found in each table.
fn read(table: &ConcurrentTable, way: u32) -> (Vec<Route>, InTable) {
    let longest = |k| {
        published(k)
            .into_iter()
            .filter(move |one| k % 2 == 0 || one.prefix.len() == 16)
    };
    match way {
        0 => {
            let found = table.look_up(Ipv4Addr::from(5 << 24)).unwrap();
            (
                found.into_iter().collect(),
                Box::new(move |k| longest(k).skip(5).take(1).collect()),
            )
        }
        1 => {
            let asked: Vec<u32> = (0..PREFIXES).map(|j| j << 24).collect();
            let found = table.look_up_each(&asked).unwrap();
            (
                found.into_iter().flatten().collect(),
                Box::new(move |k| longest(k).collect()),
            )
        }
        2 => (table.routes().unwrap(), Box::new(published)),
        3 => {
            let pages = table.routes_from(prefix(0, 0), 0, 0);
            (pages.map(Result::unwrap).collect(), Box::new(published))
        }
        4 => {
            let asked = Selection::of(Part::Within(prefix(0, 2)));
            (table.select(asked).unwrap(), Box::new(published))
        }
        _ => {
            let found = table.look_up_all(Ipv4Addr::from(0)).unwrap();
            (
                found,
                Box::new(|k| {
                    published(k)
                        .into_iter()
                        .take(1 + (k % 2) as usize)
                        .rev()
                        .collect()
                }),
            )
        }
    }
}

/// Each call returns what one published table holds: the last one that was published before the call, or a later one.
#[test]
fn threads_read_one_published_table() {
    for is_followed in [false, true] {
        let table = ConcurrentTable::new(2 * PREFIXES).unwrap();
        publish(&table, 0);
        if is_followed {
            table.fib_attach().unwrap();
        }
        let (done, ended) = (AtomicU32::new(0), AtomicBool::new(false));
        let reader = || {
            let mut seen = 0;
            while !ended.load(Ordering::Relaxed) {
                for way in 0..6 {
                    let least = done.load(Ordering::SeqCst);
                    let (found, wanted) = read(&table, way);
                    let k = number(&found[0]);
                    assert!(
                        (least.max(seen)..=CHANGES).contains(&k),
                        "{way}: {k}, {least}, {seen}"
                    );
                    assert_eq!(found, wanted(k), "{way}");
                    seen = k;
                }
                assert!(
                    [PREFIXES as usize, 2 * PREFIXES as usize].contains(&table.count().unwrap())
                );
            }
        };
        thread::scope(|scope| {
            let readers: Vec<_> = (0..4).map(|_| scope.spawn(reader)).collect();
            for k in 1..=CHANGES {
                // A reader ends early only by a failed assertion.
                if readers.iter().any(thread::ScopedJoinHandle::is_finished) {
                    break;
                }
                publish(&table, k);
                done.store(k, Ordering::SeqCst);
            }
            ended.store(true, Ordering::Relaxed);
        });
        for way in 0..6 {
            assert_eq!(read(&table, way).0, read(&table, way).1(CHANGES));
        }
    }
}

/// Threads that change one table wait for one another, by single commands and by many.
#[test]
fn threads_change_one_table() {
    let table = ConcurrentTable::new(500).unwrap();
    let route = |k| Prefix::new(Ipv4Addr::from(k << 12), 20).unwrap();
    thread::scope(|scope| {
        for feed in 1..=4 {
            let table = &table;
            scope.spawn(move || {
                for k in 0..500 {
                    if feed % 2 == 0 {
                        table.add(feed, route(k), k, Hop::Discard).unwrap();
                    } else {
                        let command = (feed, Command::Add(route(k), k, Hop::Discard));
                        assert!(table.apply_each(&[command]).unwrap()[0].is_ok());
                    }
                }
                let refused = table.add(feed, prefix(1, 8), 0, Hop::Discard);
                assert_eq!(refused, Err(Error::Full));
            });
        }
    });
    assert_eq!(table.count(), Ok(4 * 500));
}

/// A list of a table that grows is one of its tables: it always has the route that was added first, which is the last in order.
#[test]
fn lists_of_a_table_that_grows() {
    let (table, size, ended) = (
        ConcurrentTable::new(50_000).unwrap(),
        50_000,
        AtomicBool::new(false),
    );
    let route = |k| Prefix::new(Ipv4Addr::from((size - k) << 8), 24).unwrap();
    table.add(1, route(0), 0, Hop::Discard).unwrap();
    let reader = || {
        while !ended.load(Ordering::Relaxed) {
            let found = table.routes().unwrap();
            assert_eq!(found.last().map(|one| one.prefix), Some(route(0)));
            assert_eq!(
                found[0].prefix,
                route(u32::try_from(found.len()).unwrap() - 1)
            );
        }
    };
    thread::scope(|scope| {
        scope.spawn(reader);
        for k in 1..size {
            table.add(1, route(k), 0, Hop::Discard).unwrap();
        }
        ended.store(true, Ordering::Relaxed);
    });
}

/// While a change of many commands runs, another thread goes on reading, and a second change waits.
#[test]
fn readers_go_on_during_a_change() {
    let add = |k| {
        (
            1,
            Command::Add(Prefix::new(Ipv4Addr::from(k << 8), 24).unwrap(), 0, via(k)),
        )
    };
    let commands: Vec<(u32, Command)> = (0..200_000).map(add).collect();
    let is_seen = (0..20).any(|_| {
        let (table, is_changing) = (
            ConcurrentTable::new(1_000_000).unwrap(),
            AtomicBool::new(false),
        );
        let (ended, read) = (AtomicBool::new(false), AtomicU32::new(0));
        thread::scope(|scope| {
            scope.spawn(|| {
                while !ended.load(Ordering::SeqCst) {
                    let is_during = is_changing.load(Ordering::SeqCst);
                    table.look_up(Ipv4Addr::from(0)).unwrap();
                    if is_during && is_changing.load(Ordering::SeqCst) {
                        read.fetch_add(1, Ordering::SeqCst);
                    }
                }
            });
            scope.spawn(|| {
                while !ended.load(Ordering::SeqCst) {
                    table.apply(2, Command::Dump).unwrap();
                }
            });
            is_changing.store(true, Ordering::SeqCst);
            // The threads end even if this change fails.
            let replies = table.apply_each(&commands);
            is_changing.store(false, Ordering::SeqCst);
            ended.store(true, Ordering::SeqCst);
            replies.unwrap();
        });
        read.load(Ordering::SeqCst) > 1_000
    });
    assert!(is_seen);
}

#[test]
fn tables_are_freed() {
    let resident = || {
        let text = std::fs::read_to_string("/proc/self/statm").unwrap();
        text.split(' ').nth(1).unwrap().parse::<usize>().unwrap() * 4096
    };
    let before = resident();
    for _ in 0..8 {
        let table = ConcurrentTable::new(5).unwrap();
        assert_eq!(table.fib_is_attached(), Ok(false));
        table.fib_attach().unwrap();
        assert_eq!(table.fib_is_attached(), Ok(true));
        drop(table);
        Table::new(5).unwrap().fib_attach().unwrap();
    }
    // Other tests hold two forwarding tables meanwhile.
    assert!(resident() < before + (6 << 26));
}

/// A source in a concurrent table does what it does in a table.
#[test]
fn a_source_is_the_same_in_both_tables() {
    let (mut table, shared) = (Table::new(50).unwrap(), ConcurrentTable::new(50).unwrap());
    let (source, mut state) = (Source::new(3, 4).unwrap(), 1_u64);
    let own = source.of(&shared);
    let mut seen = [0; 6];
    for feed in [1, 2, 7] {
        table.add(feed, prefix(9, 8), feed, via(1)).unwrap();
        shared.add(feed, prefix(9, 8), feed, via(1)).unwrap();
    }
    for _ in 0..4_000 {
        state = state
            .wrapping_mul(6_364_136_223_846_793_005)
            .wrapping_add(1_442_695_040_888_963_407);
        let drawn = u32::try_from(state >> 33).unwrap();
        let (one, preference, hop) = (
            prefix(drawn % 150, 8 + u8::from(drawn % 7 == 0)),
            drawn % 11,
            via(drawn % 13),
        );
        let (found, wanted) = match drawn / 1024 % 16 {
            0..=6 => (
                own.add(one, preference, hop),
                source.add(&mut table, one, preference, hop),
            ),
            7..=9 => (
                own.put(one, preference, hop),
                source.put(&mut table, one, preference, hop),
            ),
            10..=11 => (
                own.replace(one, preference, hop),
                source.replace(&mut table, one, preference, hop),
            ),
            12..=14 => (own.withdraw(one), source.withdraw(&mut table, one)),
            _ if drawn / 65536 % 8 > 0 => continue,
            _ => (
                own.purge().map(Reply::Purged),
                source.purge(&mut table).map(Reply::Purged),
            ),
        };
        assert_eq!(found, wanted);
        seen[match found {
            Ok(Reply::Added) => 0,
            Ok(Reply::Replaced) => 1,
            Ok(Reply::Withdrawn) => 2,
            Ok(Reply::Purged(count)) => 3 + usize::from(count == 0),
            _ => 5,
        }] += 1;
        assert_eq!(shared.routes(), table.routes());
        assert_eq!(own.routes(), source.routes(&table));
    }
    assert!(seen[..4].iter().all(|count| *count > 5), "{seen:?}");
}

/// A purge of a source is published once: a reader finds all of its routes or none.
#[test]
fn a_purge_of_a_source_is_published_once() {
    let table = ConcurrentTable::new(50).unwrap();
    let source = Source::new(1, PREFIXES).unwrap().of(&table);
    let adds: Vec<_> = (1..=PREFIXES)
        .map(|feed| (feed, Command::Add(prefix(feed, 8), 0, via(feed))))
        .collect();
    // How often the reader has found another number of routes than before: the threads did meet.
    let (is_done, changes) = (AtomicBool::new(false), AtomicU32::new(0));
    thread::scope(|scope| {
        let reader = scope.spawn(|| {
            let (mut seen, mut before) = ([0; 1 + PREFIXES as usize], 0);
            while !is_done.load(Ordering::SeqCst) {
                let count = table.count().unwrap();
                seen[count] += 1;
                if count != before {
                    changes.fetch_add(1, Ordering::SeqCst);
                    before = count;
                }
            }
            seen
        });
        while changes.load(Ordering::SeqCst) < CHANGES {
            table.apply_each(&adds).unwrap();
            assert_eq!(source.purge(), Ok(PREFIXES));
        }
        is_done.store(true, Ordering::SeqCst);
        let seen = reader.join().unwrap();
        assert!(seen[1..PREFIXES as usize].iter().all(|count| *count == 0));
    });
}

/// Views that are made during changes that need more blocks and routers each time.
#[test]
fn views_are_of_one_published_table() {
    let (table, is_ended) = (
        ConcurrentTable::new(1_000_000).unwrap(),
        AtomicBool::new(false),
    );
    publish(&table, 0);
    table.fib_attach().unwrap();
    let addresses: Vec<u32> = (0..PREFIXES).map(|k| k << 24 | 1 << 20).collect();
    let read = || {
        let mut numbers = vec![0; addresses.len()];
        while !is_ended.load(Ordering::Relaxed) {
            let view = table.view_new().unwrap();
            view.look_up_each(&addresses, &mut numbers).unwrap();
            let first = view.hop(numbers[0]);
            assert!(numbers.iter().all(|number| view.hop(*number) == first));
            let mut hops = vec![0; addresses.len()];
            table
                .hops(&addresses, u32::MAX, u32::MAX - 1, &mut hops)
                .unwrap();
            assert!(hops.iter().all(|hop| *hop == hops[0]));
        }
    };
    thread::scope(|scope| {
        let readers = [scope.spawn(read), scope.spawn(read)];
        for k in 1..12 {
            let replaced = (0..PREFIXES).map(|j| (1, Command::Replace(prefix(j, 8), 0, via(k))));
            let added = (0..PREFIXES).map(|j| {
                let base = Ipv4Addr::from(200 << 24 | (k * PREFIXES + j) << 8);
                let router = via(1_000 + k * PREFIXES + j);
                (2, Command::Add(Prefix::from(base), 0, router))
            });
            let commands: Vec<(u32, Command)> = replaced.chain(added).collect();
            table.apply_each(&commands).unwrap();
        }
        is_ended.store(true, Ordering::Relaxed);
        for reader in readers {
            reader.join().unwrap();
        }
    });
}

#[test]
fn two_threads_load_at_once() {
    let table = ConcurrentTable::new(1_000_000).unwrap();
    let mut lines = String::new();
    for k in 0..20_000 {
        let one = Prefix::new(Ipv4Addr::from(k << 12), 20).unwrap();
        lines += &line(&route(one, 1, 0, via(k)));
    }
    thread::scope(|scope| {
        let load = |feed| table.load(feed, lines.as_bytes()).unwrap();
        let loads = [scope.spawn(move || load(1)), scope.spawn(move || load(2))];
        assert_eq!(loads.map(|one| one.join().unwrap()), [20_000, 20_000]);
    });
    assert_eq!(table.count(), Ok(40_000));
}

/// A copy has the published routes and its own limit, and so has a table that replaces another.
#[test]
fn copies_of_a_concurrent_table() {
    let table = ConcurrentTable::new(5).unwrap();
    for k in 10..12 {
        table.add(1, prefix(k, 8), 0, via(k)).unwrap();
    }
    let mut copied = table.copy(2).unwrap();
    table.withdraw(1, prefix(11, 8)).unwrap();
    let both = [
        route(prefix(10, 8), 1, 0, via(10)),
        route(prefix(11, 8), 1, 0, via(11)),
    ];
    assert_eq!(copied.routes().unwrap(), both);
    assert_eq!(
        copied.add(1, prefix(12, 8), 0, Hop::Discard),
        Err(Error::Full)
    );
    let other = ConcurrentTable::new(5).unwrap();
    other.replace_all(&copied, 2).unwrap();
    assert_eq!(other.routes().unwrap(), both);
    assert_eq!(
        other.add(1, prefix(12, 8), 0, Hop::Discard),
        Err(Error::Full)
    );
    let found: Vec<_> = table
        .differences(&other, By::Route)
        .collect::<Result<_, _>>()
        .unwrap();
    assert_eq!(found.len(), 1);
    assert_eq!(u32::from(found[0].first), 11 << 24);
    assert_eq!(
        (found[0].before, found[0].after),
        (Answer::NoRoute, Answer::Route(both[1]))
    );
    assert_eq!(table.differences(&table, By::Route).count(), 0);
    for (limit, error) in [(1, Error::Full), (0, Error::Number)] {
        assert_eq!(other.copy(limit).unwrap_err(), error);
        assert_eq!(other.replace_all(&copied, limit), Err(error));
    }
    assert_eq!(other.routes().unwrap(), both);
}

#[test]
fn a_table_replaces_another_at_once() {
    let (table, is_ended) = (ConcurrentTable::new(1_000).unwrap(), AtomicBool::new(false));
    publish(&table, 0);
    let first = table.copy(1_000).unwrap();
    publish(&table, 1);
    let second = table.copy(1_000).unwrap();
    let begun = Barrier::new(2);
    thread::scope(|scope| {
        let reader = scope.spawn(|| {
            while !is_ended.load(Ordering::Relaxed) {
                let found = table.routes().unwrap();
                assert!(found == published(0) || found == published(1));
            }
        });
        let replace = |other: &Table| {
            begun.wait();
            (0..1_000).for_each(|_| table.replace_all(other, 1_000).unwrap());
        };
        let writers = [
            scope.spawn(move || replace(&first)),
            scope.spawn(move || replace(&second)),
        ];
        let ended = writers.map(std::thread::ScopedJoinHandle::join);
        is_ended.store(true, Ordering::Relaxed);
        reader.join().unwrap();
        assert!(ended.iter().all(Result::is_ok));
    });
}
