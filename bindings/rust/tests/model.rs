//! The calls of both tables: their answers compared with test vectors, and what the crate adds to the library's calls.
#![allow(clippy::too_many_lines)]

mod routes;

use routes::{
    adding, address, bytes, changed, command, found, hop, line, number, place, prefix, rank, reply,
    route, sections, shown, Line,
};
use std::collections::BTreeSet;
use std::net::Ipv4Addr;
use std::sync::atomic::{AtomicBool, Ordering};
use std::sync::RwLock;
use std::thread;
use yarib::{
    Answer, By, Command, ConcurrentTable, Error, Fib, FileError, Hop, HopCount, Part, Prefix,
    Reply, Route, Selection, Source, Table, View, FIRST_ROUTER, MAX_FEED, NUMBER_DISCARD,
    NUMBER_NO_ROUTE,
};

/// The commands of `put`: a journal has the second one if the first finds a route.
const PUT: [fn(Prefix, u32, Hop) -> Command; 2] = [Command::Add, Command::Replace];

#[test]
fn replies_and_routes_are_the_models() {
    for (at, (head, lines)) in sections("table").into_iter().enumerate() {
        let limit = number(head[1]);
        let mut plain = Table::new(limit).unwrap();
        if at % 8 == 3 {
            plain.fib_attach().unwrap();
        }
        let (mut commands, mut replies) = (Vec::new(), Vec::new());
        for (call, answer) in &lines {
            match &call[..] {
                ["apply", feed, words @ ..] => {
                    commands.push((number(feed), command(words)));
                    replies.push(reply(answer));
                    let found = plain.apply(number(feed), command(words));
                    assert_eq!(found, reply(answer), "{at}: {call:?}");
                }
                ["put", feed, to, pref, via] => {
                    let (feed, to, pref, via) = (number(feed), prefix(to), number(pref), hop(via));
                    let last = &answer[answer.len() - 1..];
                    assert_eq!(plain.put(feed, to, pref, via), changed(last), "{call:?}");
                    for (make, word) in PUT.iter().zip(answer) {
                        commands.push((feed, make(to, pref, via)));
                        replies.push(reply(&[*word]));
                    }
                }
                _ => compare_read(&plain, call, answer),
            }
            if at % 8 == 1 && call[0] == "look_up_each" {
                compare_fib(&plain.fib_new().unwrap(), call, answer);
            }
        }
        let mut journaled = Table::with_journal(limit).unwrap();
        compare_journal(&mut journaled, &commands, &replies);
        assert_eq!(journaled.routes(), plain.routes());
        assert_eq!(journaled.differences(&plain, By::Route).count(), 0);
    }
}

/// Executes all commands in one call, and compares their replies and the journal.
fn compare_journal(
    table: &mut Table,
    commands: &[(u32, Command)],
    replies: &[yarib::Result<Reply>],
) {
    assert_eq!(table.apply_each(commands).unwrap(), replies);
    let answered = commands.iter().zip(replies);
    let wanted: Vec<_> = answered
        .filter_map(|(&(feed, command), reply)| Some((feed, command, reply.ok()?)))
        .collect();
    let entries = table.journal().unwrap();
    let found: Vec<_> = entries
        .iter()
        .map(|one| (one.feed, one.command, one.reply))
        .collect();
    assert_eq!(found, wanted);
}

/// The numbers of no route and of a discard in these tests.
const NONE: u32 = 1 << 31 | 1;
const DROP: u32 = 1 << 31 | 2;

/// Returns the routers of answers as numbers.
fn hops_of(answers: &[Option<Route>]) -> Vec<u32> {
    let hop = |answer: &Option<Route>| match answer.map(|route| route.hop) {
        None => NONE,
        Some(Hop::Discard) => DROP,
        Some(Hop::Via(router)) => u32::from(router),
    };
    answers.iter().map(hop).collect()
}

fn compare_view(view: &View, addresses: &[u32], wanted: &[Option<Route>]) {
    let mut numbers = vec![NONE; addresses.len()];
    view.look_up_each(addresses, &mut numbers).unwrap();
    for ((address, number), answer) in addresses.iter().zip(&numbers).zip(wanted) {
        assert_eq!(view.look_up(Ipv4Addr::from(*address)), *number);
        assert_eq!(view.hop(*number), answer.map(|route| route.hop));
        let is_router = matches!(view.hop(*number), Some(Hop::Via(_)));
        assert_eq!(*number >= FIRST_ROUTER, is_router);
        assert_eq!(*number == NUMBER_NO_ROUTE, answer.is_none());
    }
    assert_eq!(view.hop(NUMBER_DISCARD), Some(Hop::Discard));
    assert_eq!(view.hop(u32::MAX), None);
    numbers.push(0);
    assert_eq!(view.look_up_each(addresses, &mut numbers), Err(Error::Size));
    assert!(view.memory() >= (1 << 26) + 12);
}

/// Returns the selection that a call's words describe.
fn selection(part: &str, to: &str, feed: &str, via: &str, only_best: &str) -> Selection {
    Selection {
        part: match part {
            "all" => Part::All,
            "within" => Part::Within(prefix(to)),
            "covering" => Part::Covering(prefix(to)),
            _ => Part::Exact(prefix(to)),
        },
        feed: Some(number(feed)).filter(|feed| *feed > 0),
        hop: Some(via).filter(|via| *via != "any").map(hop),
        only_best: only_best == "1",
    }
}

/// Defines a function that compares what a call that reads a table of this type returns.
macro_rules! compare_reads {
    ($name:ident, $table:ty) => {
        fn $name(table: &$table, call: &[&str], answer: &[&str]) {
            let routes = || routes::routes(answer);
            match *call {
                ["count"] => assert_eq!(table.count(), answer[0].parse().map_err(|_| Error::Text)),
                ["routes"] => assert_eq!(table.routes(), Ok(routes())),
                ["look_up", asked] => {
                    let asked = address(asked);
                    assert_eq!(table.look_up(asked), Ok(found(answer[0])));
                    let host = Prefix::from(asked);
                    assert_eq!(table.look_up_prefix(host), Ok(found(answer[0])));
                }
                ["look_up_all", asked] => {
                    assert_eq!(table.look_up_all(address(asked)), Ok(routes()));
                }
                ["look_up_prefix", asked] => {
                    let answered = table.look_up_prefix(prefix(asked));
                    assert_eq!(answered, Ok(found(answer[0])), "{call:?}");
                }
                ["select", part, to, feed, via, only_best] => {
                    let asked = selection(part, to, feed, via, only_best);
                    assert_eq!(table.select(asked), Ok(routes()), "{asked:?}");
                }
                ["hop_counts"] => {
                    let count = |pair: &[&str]| HopCount {
                        hop: hop(pair[0]),
                        routes: number(pair[1]),
                    };
                    let wanted: Vec<HopCount> = answer.chunks(2).map(count).collect();
                    assert_eq!(table.hop_counts(), Ok(wanted));
                }
                ["routes_from", from, pref, feed] => {
                    let pages = table.routes_from(prefix(from), number(pref), number(feed));
                    let listed: Vec<Route> = pages.map(Result::unwrap).collect();
                    assert_eq!(listed, routes(), "{call:?}");
                }
                ["look_up_each", ref asked @ ..] => {
                    let forms: Vec<Ipv4Addr> = asked.iter().map(|one| address(one)).collect();
                    let asked: Vec<u32> = forms.iter().copied().map(u32::from).collect();
                    let wanted: Vec<_> = answer.iter().map(|one| found(one)).collect();
                    assert_eq!(table.look_up_each(&asked), Ok(wanted.clone()));
                    assert_eq!(table.look_up_addresses(&forms), Ok(wanted.clone()));
                    let mut hops = vec![0; asked.len()];
                    table.hops(&asked, NONE, DROP, &mut hops).unwrap();
                    assert_eq!(hops, hops_of(&wanted));
                    match table.view_new() {
                        Ok(view) => compare_view(&view, &asked, &wanted),
                        Err(error) => {
                            let refused = (error, table.fib_is_attached());
                            assert_eq!(refused, (Error::Kind, Ok(false)));
                        }
                    }
                }
                ["save", feed] => {
                    let (feed, mut text) = (number(feed), Vec::new());
                    table.save(feed, &mut text).unwrap();
                    let wanted = String::from("version 2\n") + &listed_lines(&routes());
                    assert_eq!(String::from_utf8(text).unwrap(), wanted);
                    #[allow(unused_mut)]
                    let mut other = <$table>::new(1_000_000).unwrap();
                    // The last line may lack its end.
                    let count = other.load(feed, wanted.trim_end().as_bytes()).unwrap();
                    assert_eq!((count, other.routes()), (routes().len(), Ok(routes())));
                }
                _ => panic!("{call:?}"),
            }
        }
    };
}

compare_reads!(compare_read, Table);
compare_reads!(compare_concurrent_read, ConcurrentTable);

fn listed_lines(routes: &[Route]) -> String {
    routes.iter().map(line).collect()
}

fn compare_fib(fib: &Fib, call: &[&str], answer: &[&str]) {
    let forms: Vec<Ipv4Addr> = call[1..].iter().map(|one| address(one)).collect();
    let asked: Vec<u32> = forms.iter().copied().map(u32::from).collect();
    let wanted: Vec<_> = answer.iter().map(|one| found(one)).collect();
    let mut hops = vec![0; asked.len()];
    fib.hops(&asked, NONE, DROP, &mut hops).unwrap();
    assert_eq!(hops, hops_of(&wanted));
    compare_view(&fib.view_new().unwrap(), &asked, &wanted);
    assert_eq!(fib.look_up_each(&asked), Ok(wanted.clone()));
    assert_eq!(fib.look_up_addresses(&forms), Ok(wanted));
}

/// Executes a command by the call of its own, if there is one, and compares what it returns.
fn execute(table: &ConcurrentTable, call: &[&str], answer: &[&str]) {
    let (feed, asked) = (number(call[1]), command(&call[2..]));
    let (found, wanted) = match asked {
        Command::Add(to, pref, via) => (table.add(feed, to, pref, via), changed(answer)),
        Command::Replace(to, pref, via) => (table.replace(feed, to, pref, via), changed(answer)),
        Command::Withdraw(to) => (table.withdraw(feed, to), changed(answer)),
        other => (table.apply(feed, other), reply(answer)),
    };
    assert_eq!(found, wanted, "{call:?}");
}

/// Executes commands that follow one another in one call, and compares their replies.
fn execute_each(table: &ConcurrentTable, lines: &[Line]) {
    let asked: Vec<_> = lines
        .iter()
        .map(|(call, _)| (number(call[1]), command(&call[2..])))
        .collect();
    let wanted: Vec<_> = lines.iter().map(|(_, answer)| reply(answer)).collect();
    assert_eq!(table.apply_each(&asked), Ok(wanted));
}

/// The commands of a concurrent table, by all its calls.
#[test]
fn a_concurrent_table_answers_as_the_model() {
    for (at, (head, lines)) in sections("table").into_iter().enumerate() {
        let table = ConcurrentTable::new(number(head[1])).unwrap();
        if at % 8 == 3 {
            table.fib_attach().unwrap();
            assert!(table.memory().unwrap() >= 2 << 26);
        }
        let mut rest = &lines[..];
        while let Some((call, answer)) = rest.first() {
            let commands = rest.iter().take_while(|(call, _)| call[0] == "apply");
            let size = commands.count().max(1);
            match call[..] {
                ["apply", ..] if size == 1 => execute(&table, call, answer),
                ["apply", ..] => execute_each(&table, &rest[..size]),
                ["put", feed, to, pref, via] => {
                    let put = table.put(number(feed), prefix(to), number(pref), hop(via));
                    assert_eq!(put, changed(&answer[answer.len() - 1..]), "{call:?}");
                }
                _ => compare_concurrent_read(&table, call, answer),
            }
            rest = &rest[size..];
        }
        let count = table.count().unwrap();
        assert!(table.memory().unwrap() >= 2 * 62 * count.min(1));
    }
    assert_eq!(ConcurrentTable::new(0).unwrap_err(), Error::Number);
}

#[test]
fn pages_follow_one_another() {
    let mut table = Table::new(2_000).unwrap();
    let first: Prefix = "0.0.0.0/0".parse().unwrap();
    assert_eq!(table.routes_from(first, 0, 0).next(), None);
    for k in 0..512_u32 {
        let prefix = Prefix::new(Ipv4Addr::from(k << 12), 20).unwrap();
        table.add(1 + k % 3, prefix, k, Hop::Discard).unwrap();
        if [254, 255, 256, 511].contains(&k) {
            let listed = table.routes().unwrap();
            assert!(table
                .routes_from(first, 0, 0)
                .map(Result::unwrap)
                .eq(listed));
        }
    }
    let last = table.routes().unwrap()[511];
    let (prefix, preference, _) = place(&last);
    let from = |table: &mut Table, feed| table.routes_from(prefix, preference, feed).count();
    assert_eq!(from(&mut table, last.feed), 1);
    assert_eq!(from(&mut table, last.feed + 1), 0);
}

#[test]
fn a_followed_table_counts_its_memory() {
    let mut table = Table::new(50).unwrap();
    assert_eq!(
        (table.memory(), table.fib_is_attached()),
        (Ok(0), Ok(false))
    );
    table.fib_attach().unwrap();
    assert_eq!(table.fib_is_attached(), Ok(true));
    table.put(1, all_addresses(), 0, Hop::Discard).unwrap();
    assert!(table.memory().unwrap() >= 1 << 26);
    assert_eq!(
        Table::with_journal(5).unwrap().fib_attach(),
        Err(Error::Kind)
    );
    for feed in [0, MAX_FEED + 1] {
        let asked = Selection {
            feed: Some(feed),
            ..Selection::of(Part::All)
        };
        assert_eq!(table.select(asked), Err(Error::Number));
    }
}

#[test]
fn a_view_stays_as_it_was_made() {
    let addresses = [0x0a00_0001, 0x0a01_0001, 0x0b00_0000];
    let router = Hop::Via(Ipv4Addr::from(0xc000_0201));
    let (wide, narrow): (Prefix, Prefix) = (
        "10.0.0.0/8".parse().unwrap(),
        "10.1.0.0/16".parse().unwrap(),
    );
    let wanted = [
        Some(route(wide, 1, 0, router)),
        Some(route(narrow, 1, 0, Hop::Discard)),
        None,
    ];
    let views = {
        let (mut table, shared) = (Table::new(9).unwrap(), ConcurrentTable::new(9).unwrap());
        for one in wanted.iter().flatten() {
            table.apply(1, adding(one)).unwrap();
            shared.apply(1, adding(one)).unwrap();
        }
        assert_eq!(table.view_new().unwrap_err(), Error::Kind);
        assert_eq!(shared.view_new().unwrap_err(), Error::Kind);
        table.fib_attach().unwrap();
        shared.fib_attach().unwrap();
        let fib = table.fib_new().unwrap();
        let views = [
            table.view_new().unwrap(),
            shared.view_new().unwrap(),
            fib.view_new().unwrap(),
        ];
        table.apply(1, Command::Purge).unwrap();
        shared.apply(1, Command::Purge).unwrap();
        views
    };
    thread::scope(|scope| {
        for view in &views {
            scope.spawn(|| compare_view(view, &addresses, &wanted));
        }
    });
    let one = Table::new(5).unwrap();
    assert_eq!(one.hops(&[1], 0, 1, &mut []), Err(Error::Size));
    assert_eq!(one.hops(&[], 0, 1, &mut []), Ok(()));
}

#[test]
fn errors_leave_all_as_it_was() {
    assert_eq!(Table::new(0).unwrap_err(), Error::Number);
    assert_eq!(Table::new(1_000_001).unwrap_err(), Error::Number);
    let mut table = Table::new(5).unwrap();
    for feed in [0, MAX_FEED + 1, u32::MAX] {
        assert_eq!(table.apply(feed, Command::Dump), Err(Error::Number));
    }
    let outcomes = table
        .apply_each(&[(0, Command::Dump), (1, Command::Dump)])
        .unwrap();
    assert_eq!(outcomes, [Err(Error::Number), Ok(Reply::Dumped(0))]);
    assert_eq!(table.journal(), Err(Error::Kind));
    assert_eq!(table.reserve(usize::MAX), Ok(()));
    assert_eq!(
        Table::with_journal(5).unwrap().reserve(usize::MAX),
        Err(Error::Memory)
    );
    for (text, fault) in [
        ("10.0.0.0", Error::Text),
        ("10.0.0.0/33", Error::Length),
        ("10.0.0.1/8", Error::Bits),
    ] {
        assert_eq!(text.parse::<Prefix>(), Err(fault));
    }
    assert_eq!(Prefix::new(Ipv4Addr::UNSPECIFIED, 33), Err(Error::Length));
    assert_eq!(Prefix::new(Ipv4Addr::BROADCAST, 0), Err(Error::Bits));
    assert_eq!(
        "255.255.255.255/32".parse(),
        Prefix::new(Ipv4Addr::BROADCAST, 32)
    );
    assert_eq!(
        (table.count(), table.apply_each(&[]).unwrap().len()),
        (Ok(0), 0)
    );
}

#[test]
fn differences_reach_the_last_address() {
    let (old, mut new) = (Table::new(5).unwrap(), Table::new(5).unwrap());
    let hop = Hop::Via(Ipv4Addr::new(192, 0, 2, 1));
    new.add(1, "255.255.255.254/31".parse().unwrap(), 0, hop)
        .unwrap();
    new.add(2, "0.0.0.0/32".parse().unwrap(), 0, Hop::Discard)
        .unwrap();
    let found: Vec<_> = old
        .differences(&new, By::Hop)
        .map(Result::unwrap)
        .map(|range| (u32::from(range.first), range.after))
        .collect();
    assert_eq!(
        found,
        [
            (0, Answer::Hop(Hop::Discard)),
            (u32::MAX - 1, Answer::Hop(hop))
        ]
    );
}

#[test]
fn threads_look_up_at_once() {
    fn is_send<T: Send>(_: &T) {}
    let mut table = Table::new(1_000).unwrap();
    for k in 0..256 {
        let prefix = Prefix::new(Ipv4Addr::from(k << 24), 8).unwrap();
        table.add(1, prefix, k, Hop::Discard).unwrap();
    }
    is_send(&table);
    let first = table.fib_new().unwrap();
    assert!(first.memory().unwrap() >= 1 << 26);
    table.apply(1, Command::Purge).unwrap();
    let others: Vec<Fib> = (0..8).map(|_| first.try_clone().unwrap()).collect();
    drop(first);
    let asked: Vec<u32> = (0..100_000).map(|k| ((k % 256) << 24) | k).collect();
    let ask = |forwarding: Fib| {
        let found = forwarding.look_up_each(&asked).unwrap();
        found
            .iter()
            .zip(0..)
            .all(|(route, k)| route.map(|route| place(&route).1) == Some(k % 256))
    };
    let right = thread::scope(|scope| {
        let threads: Vec<_> = others
            .into_iter()
            .map(|one| scope.spawn(move || ask(one)))
            .collect();
        threads.into_iter().all(|one| one.join().unwrap())
    });
    assert!(right);
}

/// Four threads that look up in one table at the same time.
#[test]
fn threads_look_up_in_one_table() {
    fn is_sync<T: Sync>(_: &T) {}
    for is_followed in [false, true] {
        let mut table = Table::new(1_000).unwrap();
        for k in 0..256 {
            let prefix = Prefix::new(Ipv4Addr::from(k << 24), 8).unwrap();
            table.add(1, prefix, k, Hop::Discard).unwrap();
        }
        if is_followed {
            table.fib_attach().unwrap();
        }
        is_sync(&table);
        let ask = || {
            (0..20_000u32).all(|k| {
                let found = table
                    .look_up(Ipv4Addr::from(((k % 256) << 24) | k))
                    .unwrap();
                let all = table.look_up_all(Ipv4Addr::from(k << 24)).unwrap();
                found.map(|route| place(&route).1) == Some(k % 256) && all.len() == 1
            }) && table.routes_from(all_addresses(), 0, 0).count() == 256
        };
        thread::scope(|scope| {
            let threads: Vec<_> = (0..4).map(|_| scope.spawn(ask)).collect();
            assert!(threads.into_iter().all(|one| one.join().unwrap()));
        });
        assert_eq!(table.count().unwrap(), 256);
    }
}

fn all_addresses() -> Prefix {
    Prefix::new(Ipv4Addr::from(0), 0).unwrap()
}

/// Four threads that look up and one that changes: the next hop goes up with each change.
#[test]
fn threads_look_up_beside_changes() {
    let changes = 1_000;
    let eight: Prefix = "10.0.0.0/8".parse().unwrap();
    let via = |k: u32| Hop::Via(Ipv4Addr::from(k));
    let mut made = Table::new(10).unwrap();
    made.add(1, eight, 0, via(0)).unwrap();
    let (table, ended) = (RwLock::new(made), AtomicBool::new(false));
    let ask = || {
        let mut last = via(0);
        while !ended.load(Ordering::Relaxed) {
            let found = table.read().unwrap().look_up(eight.base()).unwrap();
            let hop = found.expect("the prefix covers it").hop;
            assert!(router_of(hop) >= router_of(last));
            last = hop;
        }
    };
    thread::scope(|scope| {
        for _ in 0..4 {
            scope.spawn(ask);
        }
        for k in 1..=changes {
            let command = Command::Replace(eight, 0, via(k));
            let reply = table.write().unwrap().apply(1, command);
            assert_eq!(reply, Ok(Reply::Replaced));
        }
        ended.store(true, Ordering::Relaxed);
    });
    let found = table.read().unwrap().look_up(eight.base()).unwrap();
    assert_eq!(found.map(|route| route.hop), Some(via(changes)));
}

fn router_of(hop: Hop) -> u32 {
    match hop {
        Hop::Via(router) => u32::from(router),
        Hop::Discard => u32::MAX,
    }
}

/// Returns what a table answers for the addresses of a range.
fn answer_in(word: &str, by: By) -> Answer {
    match (word, by) {
        ("-", _) => Answer::NoRoute,
        (word, By::Hop) => Answer::Hop(hop(word)),
        (word, _) => Answer::Route(found(word).unwrap()),
    }
}

#[test]
fn both_sides_of_each_difference() {
    let side = |name: &str| usize::from(name == "new");
    for (_, lines) in sections("pair") {
        let mut tables = [Table::new(99).unwrap(), Table::with_journal(99).unwrap()];
        for (call, answer) in &lines {
            if let ["differences", old, new, by] = call[..] {
                let by = if by == "hop" { By::Hop } else { By::Route };
                let found: Vec<_> = tables[side(old)]
                    .differences(&tables[side(new)], by)
                    .map(Result::unwrap)
                    .map(|one| (one.first, one.last, one.before, one.after))
                    .collect();
                let range = |words: &[&str]| {
                    let (before, after) = (answer_in(words[2], by), answer_in(words[3], by));
                    (address(words[0]), address(words[1]), before, after)
                };
                assert_eq!(found, answer.chunks(4).map(range).collect::<Vec<_>>());
            } else {
                let replied = tables[side(call[0])].apply(number(call[1]), command(&call[2..]));
                assert_eq!(replied, reply(answer));
            }
        }
    }
}

#[test]
fn lists_at_page_boundaries() {
    let all = all_addresses();
    for size in [63, 64, 65, 255, 256, 257, 4095, 4096, 4097_u32] {
        let mut table = Table::with_journal(1_000_000).unwrap();
        let routes: Vec<Route> = (0..size)
            .map(|k| {
                let prefix = Prefix::new(Ipv4Addr::from((10 << 24) + 4 * k), 30).unwrap();
                route(prefix, 1 + k % 3, k, Hop::Via(Ipv4Addr::from(k)))
            })
            .collect();
        for one in &routes {
            let added = table.apply(one.feed, adding(one));
            assert_eq!(added, Ok(Reply::Added));
        }
        assert_eq!(table.routes().unwrap(), routes);
        let walked: Vec<Route> = table.routes_from(all, 0, 0).map(Result::unwrap).collect();
        assert_eq!(walked, routes);
        let within = Selection::of(Part::Within("10.0.0.0/8".parse().unwrap()));
        assert_eq!(table.select(within).unwrap(), routes);
        let once = |one: &Route| HopCount {
            hop: one.hop,
            routes: 1,
        };
        let counts: Vec<HopCount> = routes.iter().map(once).collect();
        assert_eq!(table.hop_counts().unwrap(), counts);
        let asked: Vec<u32> = routes
            .iter()
            .map(|one| u32::from(one.prefix.base()) + 3)
            .collect();
        let wanted: Vec<Option<Route>> = routes.iter().copied().map(Some).collect();
        assert_eq!(table.look_up_each(&asked).unwrap(), wanted);
        let entries = table.journal().unwrap();
        assert_eq!(entries.len(), size as usize);
        for (entry, one) in entries.iter().zip(&routes) {
            let wanted = (one.feed, adding(one), Reply::Added);
            assert_eq!((entry.feed, entry.command, entry.reply), wanted);
        }
    }
}

#[test]
fn all_matches_at_page_boundaries() {
    let (mut table, address) = (Table::new(99).unwrap(), Ipv4Addr::new(10, 0, 0, 0));
    let mut listed = Vec::new();
    for len in 0..=8_u8 {
        let prefix = Prefix::new(
            if len < 5 {
                Ipv4Addr::UNSPECIFIED
            } else {
                Ipv4Addr::from((10 << 24) >> (32 - len) << (32 - len))
            },
            len,
        )
        .unwrap();
        for feed in 1..=MAX_FEED {
            let (preference, hop) = (feed % 7, Hop::Discard);
            table.add(feed, prefix, preference, hop).unwrap();
            listed.push(route(prefix, feed, preference, hop));
            if [63, 64, 65, 127, 128, 255, 256, 257, 576].contains(&listed.len()) {
                listed.sort_by_key(rank);
                assert_eq!(table.look_up_all(address).unwrap(), listed);
                let found = table.look_up_prefix(Prefix::from(address)).unwrap();
                assert_eq!(found, listed.first().copied());
            }
        }
    }
}

#[test]
fn conventions_of_rust() {
    let (ten, router) = ("10.0.0.0/8".parse().unwrap(), Ipv4Addr::new(192, 0, 2, 1));
    let mut table = Table::new(1).unwrap();
    assert_eq!(table.put(1, ten, 5, Hop::from(router)), Ok(Reply::Added));
    assert_eq!(table.put(1, ten, 6, Hop::Discard), Ok(Reply::Replaced));
    let replaced = route(ten, 1, 6, Hop::Discard);
    assert_eq!(table.routes().unwrap(), [replaced]);
    assert_eq!(table.add(1, ten, 0, Hop::Discard), Err(Error::Exists));
    let eleven = Prefix::try_from((Ipv4Addr::new(11, 0, 0, 0), 8)).unwrap();
    assert_eq!(table.add(1, eleven, 0, Hop::Discard), Err(Error::Full));
    assert_eq!(table.put(1, eleven, 0, Hop::Discard), Err(Error::Full));
    assert_eq!(table.withdraw(1, eleven), Err(Error::Missing));
    assert_eq!(table.replace(2, ten, 0, Hop::Discard), Err(Error::Missing));
    for (base, len) in [
        (Ipv4Addr::new(10, 0, 0, 1), 8),
        (Ipv4Addr::new(10, 128, 0, 0), 8),
    ] {
        assert_eq!(Prefix::try_from((base, len)), Err(Error::Bits));
    }
    for (prefix, address, is_in) in [
        (ten, Ipv4Addr::new(10, 255, 255, 255), true),
        (ten, Ipv4Addr::new(11, 0, 0, 0), false),
        (all_addresses(), Ipv4Addr::BROADCAST, true),
        (Prefix::from(router), router, true),
        (Prefix::from(router), Ipv4Addr::new(192, 0, 2, 0), false),
    ] {
        assert_eq!(prefix.contains(address), is_in);
        assert_eq!(prefix.contains_prefix(Prefix::from(address)), is_in);
    }
    assert!(!ten.contains_prefix(all_addresses()) && ten.contains_prefix(ten));
    let found = table.apply(1, Command::Lookup(ten.base())).unwrap();
    assert_eq!(found.to_string(), format!("route {}", shown(&replaced)));
    assert_eq!(
        (Hop::Discard.to_string(), Hop::Via(router).to_string()),
        ("discard".to_string(), "192.0.2.1".to_string())
    );
}

#[test]
fn commands_are_lines_of_a_feed_file() {
    let (ten, router) = ("10.0.0.0/8".parse().unwrap(), Ipv4Addr::new(192, 0, 2, 1));
    assert_eq!(<(Ipv4Addr, u8)>::from(ten), (Ipv4Addr::new(10, 0, 0, 0), 8));
    for (command, line) in [
        (
            Command::Add(ten, 7, Hop::Discard),
            "add 10.0.0.0/8 7 discard",
        ),
        (
            Command::Replace(ten, 8, Hop::Via(router)),
            "replace 10.0.0.0/8 8 192.0.2.1",
        ),
        (Command::Withdraw(ten), "withdraw 10.0.0.0/8"),
        (Command::Lookup(router), "lookup 192.0.2.1"),
        (Command::Dump, "dump"),
        (Command::Purge, "purge"),
    ] {
        assert_eq!(command.to_string(), line);
    }
}

#[test]
fn files_that_are_refused() {
    let one = Table::new(5).unwrap();
    for feed in [0, MAX_FEED + 1] {
        let refused = one.save(feed, Vec::new());
        assert!(matches!(refused, Err(FileError::Table(Error::Number))));
    }
    let full: &mut [u8] = &mut [0; 5];
    assert!(matches!(one.save(1, full), Err(FileError::Io(_))));
}

/// A file of which only the beginning can be read.
struct Broken<'a>(&'a [u8]);

impl std::io::Read for Broken<'_> {
    fn read(&mut self, into: &mut [u8]) -> std::io::Result<usize> {
        match self.0.read(into)? {
            0 => Err(std::io::Error::from(std::io::ErrorKind::BrokenPipe)),
            size => Ok(size),
        }
    }
}

#[test]
fn faulty_lines_are_named() {
    let reasons = [
        ("exists", Error::Exists),
        ("full", Error::Full),
        ("bits", Error::Bits),
        ("length", Error::Length),
    ];
    for (call, answer) in sections("files").remove(0).1 {
        let (mut table, text) = (Table::new(2).unwrap(), bytes(call[1]));
        let (line, found, reason) = match table.load(3, &text[..]) {
            Ok(count) => {
                assert_eq!(count.to_string(), answer[0]);
                (0, String::new(), "-")
            }
            Err(FileError::Line { line, text }) => (line, text, "line"),
            Err(FileError::Route { line, text, error }) => {
                let reason = reasons.iter().find(|one| one.1 == error);
                (line, text, reason.expect("a route isn't added").0)
            }
            Err(other) => panic!("{other}"),
        };
        assert!(found.len() <= 129 && String::from_utf8_lossy(&text).contains(&found));
        let (count, line) = (table.count().unwrap().to_string(), line.to_string());
        assert_eq!([&count[..], &line[..], reason], answer[..], "{call:?}");
    }
    let mut table = Table::new(2).unwrap();
    let said = |refused: Result<usize, FileError>| refused.unwrap_err().to_string();
    assert_eq!(
        said(table.load(1, &b"\nadd x"[..])),
        "line 2: not an add line of a feed file: \"add x\""
    );
    assert_eq!(
        said(table.load(1, &b"add 1.0.0.0/7 0 0.0.0.0"[..])),
        "line 1: a bit past the length is set: \"add 1.0.0.0/7 0 0.0.0.0\""
    );
    let more = &b"add 1.0.0.0/8 0 0.0.0.0\nadd 2.0.0.0/8 0 0.0.0.0\nadd 3.0.0.0/8 0 0.0.0.0"[..];
    let full = table.load(1, more).unwrap_err();
    assert_eq!(
        full.to_string(),
        "line 3: the feed is at its limit: \"add 3.0.0.0/8 0 0.0.0.0\""
    );
    // Its reason is an error of its own, for programs that print or compare each error of a chain.
    let reason = |error: &FileError| std::error::Error::source(error).map(ToString::to_string);
    assert_eq!(reason(&full), Some(Error::Full.to_string()));
    assert!(matches!(
        table.load(1, Broken(&b"add 1.0.0.0/9 0 0.0.0.0\n"[..])),
        Err(FileError::Io(_))
    ));
    assert_eq!(table.count(), Ok(2), "what can't be read changes nothing");
    let wrong = table.load(0, more).unwrap_err();
    assert_eq!(reason(&wrong), Some(Error::Number.to_string()));
    let other = table.load(1, &b"add x"[..]).unwrap_err();
    assert_eq!(reason(&other), None);
    assert!(matches!(
        table.load(1, &b"add \xff 1 2"[..]),
        Err(FileError::Line { line: 1, .. })
    ));
}

/// Executes a command of a source by its call.
fn deal(source: Source, table: &mut Table, words: &[&str]) -> yarib::Result<Reply> {
    match *words {
        ["put", to, pref, via] => source.put(table, prefix(to), number(pref), hop(via)),
        ["add", to, pref, via] => source.add(table, prefix(to), number(pref), hop(via)),
        ["replace", to, pref, via] => source.replace(table, prefix(to), number(pref), hop(via)),
        ["withdraw", to] => source.withdraw(table, prefix(to)),
        _ => source.purge(table).map(Reply::Purged),
    }
}

/// The feeds of a table to which a source is dealt answer as one feed, the first of them.
#[test]
fn a_source_is_one_feed() {
    for (head, lines) in sections("source") {
        let (first, feeds) = (number(head[1]), number(head[2]));
        let (source, mut used) = (Source::new(first, feeds).unwrap(), BTreeSet::new());
        let mut table = Table::new(1_000_000).unwrap();
        let mut as_one = |route: Route| {
            if !(first..first + feeds).contains(&route.feed) {
                return route;
            }
            assert_eq!(source.feed_of(route.prefix), route.feed);
            used.insert(route.feed);
            Route {
                feed: first,
                ..route
            }
        };
        for (call, answer) in &lines {
            match call[..] {
                ["apply", feed, ref words @ ..] => {
                    let replied = match table.apply(number(feed), command(words)) {
                        Ok(Reply::Found(route)) => Ok(Reply::Found(as_one(route))),
                        other => other,
                    };
                    assert_eq!(replied, reply(answer));
                }
                ["deal", "put", ..] => {
                    let last = &answer[answer.len() - 1..];
                    assert_eq!(deal(source, &mut table, &call[1..]), changed(last));
                }
                ["deal", ref words @ ..] => {
                    assert_eq!(deal(source, &mut table, words), changed(answer));
                }
                ["look_up", asked] => {
                    let best = table.look_up(address(asked)).unwrap();
                    assert_eq!(best.map(&mut as_one), found(answer[0]));
                }
                ["routes"] => {
                    let listed = table.routes().unwrap().into_iter();
                    assert_eq!(
                        listed.map(&mut as_one).collect::<Vec<_>>(),
                        routes::routes(answer)
                    );
                }
                _ => {
                    let own = source.routes(&table).unwrap().into_iter();
                    assert_eq!(
                        own.map(&mut as_one).collect::<Vec<_>>(),
                        routes::routes(answer)
                    );
                }
            }
        }
        assert_eq!(used.len(), 3);
    }
}

/// The feeds of these prefixes are the same in each language's package.
#[test]
fn feeds_of_a_source() {
    let source = Source::new(1, MAX_FEED).unwrap();
    let found: Vec<u32> = [
        "0.0.0.0/0",
        "10.0.0.0/8",
        "10.1.0.0/16",
        "192.0.2.0/24",
        "255.255.255.255/32",
        "128.0.0.0/1",
    ]
    .iter()
    .map(|text| source.feed_of(text.parse().unwrap()))
    .collect();
    assert_eq!(found, [1, 11, 38, 2, 11, 8]);
    for (first, feeds) in [
        (0, 1),
        (1, 0),
        (1, MAX_FEED + 1),
        (MAX_FEED + 1, 1),
        (MAX_FEED, 2),
        (2, u32::MAX),
    ] {
        assert_eq!(Source::new(first, feeds), Err(Error::Number));
    }
    for (first, feeds) in [(1, MAX_FEED), (MAX_FEED, 1), (MAX_FEED - 1, 2)] {
        assert!(Source::new(first, feeds).is_ok());
    }
    let (mut table, source) = (Table::new(1).unwrap(), Source::new(7, 1).unwrap());
    let (zero, one) = (all_addresses(), "128.0.0.0/1".parse().unwrap());
    assert_eq!(
        source.put(&mut table, zero, 0, Hop::Discard),
        Ok(Reply::Added)
    );
    assert_eq!(
        source.add(&mut table, one, 0, Hop::Discard),
        Err(Error::Full)
    );
    assert_eq!(table.look_up(zero.base()).unwrap().unwrap().feed, 7);
}

/// The crate and the library have the same version.
#[test]
fn versions() {
    assert_eq!(yarib::version(), env!("CARGO_PKG_VERSION"));
    assert!(yarib::build().starts_with("sources "));
}
