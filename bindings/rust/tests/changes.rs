//! Which best routes commands change, compared with test vectors.
mod routes;

use routes::{command, found, number, reply, sections, Line};
use std::net::Ipv4Addr;
use yarib::{Change, Command, ConcurrentTable, Error, Reply, Result, Table};

/// Executes a command by the calls of a table that return its changes.
macro_rules! changing {
    ($table:ident) => {
        |feed, command| {
            if command == Command::Purge {
                let changes = $table.purge_changes(feed)?;
                return Ok(($table.apply(feed, command)?, changes));
            }
            let (reply, change) = $table.apply_changed(feed, command)?;
            Ok((reply, change.into_iter().collect()))
        }
    };
}

/// Returns the change between two routes to a prefix, each of which may be none.
fn change(sides: &[&str]) -> Change {
    let (before, after) = (found(sides[0]), found(sides[1]));
    let prefix = before.or(after).expect("a change has a route").prefix;
    Change {
        prefix,
        before,
        after,
    }
}

/// Compares each command's changes, by a call that executes it and returns them.
fn compare(lines: &[Line], mut apply: impl FnMut(u32, Command) -> Result<(Reply, Vec<Change>)>) {
    for (call, answer) in lines {
        let wanted: Result<(Reply, Vec<Change>)> = if answer[..] == ["refused"] {
            Err(Error::Command)
        } else {
            let (replied, changes) = answer.split_at(1 + usize::from(answer[0] == "purged"));
            Ok((
                reply(replied).unwrap(),
                changes.chunks(2).map(change).collect(),
            ))
        };
        assert_eq!(
            apply(number(call[1]), command(&call[2..])),
            wanted,
            "{call:?}"
        );
    }
}

#[test]
fn changes_are_those_of_the_best_routes() {
    for (at, (head, lines)) in sections("changes").into_iter().enumerate() {
        let make = [Table::new, Table::with_journal][at % 2];
        let mut table = make(number(head[1])).unwrap();
        compare(&lines, changing!(table));
    }
}

#[test]
fn changes_of_a_concurrent_table() {
    for (head, lines) in sections("changes") {
        let table = ConcurrentTable::new(number(head[1])).unwrap();
        compare(&lines, changing!(table));
        assert_eq!(table.purge_changes(0), Err(Error::Number));
        assert_eq!(table.apply_changed(65, Command::Purge), Err(Error::Number));
    }
}

#[test]
fn other_commands_are_refused() {
    let mut table = Table::new(9).unwrap();
    for command in [
        Command::Lookup(Ipv4Addr::UNSPECIFIED),
        Command::Dump,
        Command::Purge,
    ] {
        assert_eq!(table.apply_changed(1, command), Err(Error::Command));
    }
    assert_eq!(table.purge_changes(65), Err(Error::Number));
}
