//! Routes for the tests: how they are made, put in order and written, and how the words of test vectors are read. Of the
//! tests only this file names each field.
#![allow(dead_code)]

use std::net::Ipv4Addr;
use yarib::{Command, Error, Hop, Prefix, Reply, Result, Route};

pub fn route(prefix: Prefix, feed: u32, preference: u32, hop: Hop) -> Route {
    Route {
        prefix,
        feed,
        pref: preference,
        hop,
    }
}

/// Returns the command that adds a route.
pub fn adding(route: &Route) -> Command {
    Command::Add(route.prefix, route.pref, route.hop)
}

/// Returns a route's position in the order of a table: its prefix, preference and feed.
pub fn place(route: &Route) -> (Prefix, u32, u32) {
    (route.prefix, route.pref, route.feed)
}

/// Returns a route's position among those that cover an address, the best first.
pub fn rank(route: &Route) -> (u8, u32, u32) {
    (32 - route.prefix.len(), route.pref, route.feed)
}

/// Writes a route as the program prints it, without the crate's text of a route.
pub fn shown(route: &Route) -> String {
    format!(
        "{} feed {} pref {} via {}",
        route.prefix, route.feed, route.pref, route.hop
    )
}

/// Writes the line of a feed file that adds a route, without the crate's texts.
pub fn line(route: &Route) -> String {
    let hop = match route.hop {
        Hop::Via(router) => router.to_string(),
        Hop::Discard => "discard".to_string(),
    };
    let (base, len) = (route.prefix.base(), route.prefix.len());
    format!("add {base}/{len} {} {hop}\n", route.pref)
}

/// A call and its answer, each as words.
pub type Line = (Vec<&'static str>, Vec<&'static str>);

/// Returns the sections of this kind: the words of the first line of each, and its other lines. `dev/models/table_vectors.py`
/// writes and describes them.
pub fn sections(kind: &str) -> Vec<(Vec<&'static str>, Vec<Line>)> {
    let file = std::env::var("YARIB_VECTORS").unwrap_or_else(|_| "../out/vectors".to_string());
    let text = std::fs::read_to_string(file).expect("the README says how to make test vectors");
    let text: &'static str = Box::leak(text.into_boxed_str());
    let words = |text: &'static str| text.split_whitespace().collect();
    let mut sections: Vec<(Vec<&str>, Vec<Line>)> = Vec::new();
    for line in text.lines() {
        match (line.split_once(" ="), sections.last_mut()) {
            (Some((call, answer)), Some(section)) => section.1.push((words(call), words(answer))),
            _ => sections.push((words(line), Vec::new())),
        }
    }
    sections.retain(|(head, _)| head[0] == kind);
    sections
}

/// Returns a text, which is `x` and hexadecimal digits.
pub fn bytes(word: &str) -> Vec<u8> {
    let digits = (1..word.len()).step_by(2);
    digits
        .map(|at| u8::from_str_radix(&word[at..at + 2], 16).unwrap())
        .collect()
}

pub fn number(word: &str) -> u32 {
    word.parse().unwrap()
}

pub fn address(word: &str) -> Ipv4Addr {
    word.parse().unwrap()
}

pub fn prefix(word: &str) -> Prefix {
    let (base, len) = word.split_once('/').unwrap();
    Prefix::new(address(base), len.parse().unwrap()).unwrap()
}

pub fn hop(word: &str) -> Hop {
    if word == "discard" {
        Hop::Discard
    } else {
        Hop::Via(address(word))
    }
}

/// Returns a route, or `None` for `-`.
pub fn found(word: &str) -> Option<Route> {
    let fields: Vec<&str> = word.split(',').collect();
    match fields[..] {
        ["-"] => None,
        [to, feed, pref, via] => Some(route(prefix(to), number(feed), number(pref), hop(via))),
        _ => panic!("{word}"),
    }
}

pub fn routes(words: &[&str]) -> Vec<Route> {
    words.iter().filter_map(|word| found(word)).collect()
}

pub fn command(words: &[&str]) -> Command {
    match *words {
        ["add", to, pref, via] => Command::Add(prefix(to), number(pref), hop(via)),
        ["replace", to, pref, via] => Command::Replace(prefix(to), number(pref), hop(via)),
        ["withdraw", to] => Command::Withdraw(prefix(to)),
        ["lookup", asked] => Command::Lookup(address(asked)),
        ["dump"] => Command::Dump,
        ["purge"] => Command::Purge,
        _ => panic!("{words:?}"),
    }
}

/// Returns the reply to a command, or the error if its feed is none.
pub fn reply(words: &[&str]) -> Result<Reply> {
    Ok(match *words {
        ["added"] => Reply::Added,
        ["exists"] => Reply::Exists,
        ["full"] => Reply::Full,
        ["replaced"] => Reply::Replaced,
        ["withdrawn"] => Reply::Withdrawn,
        ["missing"] => Reply::Missing,
        ["found", word] => Reply::Found(found(word).unwrap()),
        ["none"] => Reply::NoRoute,
        ["dumped", count] => Reply::Dumped(number(count)),
        ["purged", count] => Reply::Purged(number(count)),
        ["range"] => return Err(Error::Number),
        _ => panic!("{words:?}"),
    })
}

/// Returns what the call of a command's own returns: an error if the command changes nothing.
pub fn changed(words: &[&str]) -> Result<Reply> {
    match reply(words)? {
        Reply::Exists => Err(Error::Exists),
        Reply::Full => Err(Error::Full),
        Reply::Missing => Err(Error::Missing),
        other => Ok(other),
    }
}
