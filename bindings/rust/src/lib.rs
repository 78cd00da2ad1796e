//! IPv4 routing tables whose answers are proved.
//!
//! ```
//! use std::net::Ipv4Addr;
//! use yarib::{Hop, Reply, Table};
//!
//! let mut table = Table::new(1_000_000)?;
//! let hop = Hop::Via(Ipv4Addr::new(192, 0, 2, 1));
//! assert_eq!(table.add(1, "10.0.0.0/8".parse()?, 10, hop)?, Reply::Added);
//! let best = table.look_up(Ipv4Addr::new(10, 1, 2, 3))?.expect("the prefix covers it");
//! assert_eq!(best.hop, hop);
//! # Ok::<(), yarib::Error>(())
//! ```
//!
//! Feeds are 1 to [`MAX_FEED`]. The lowest preference number is preferred; between equal preferences, the lowest feed. After an [`Error`]
//! the table is unchanged. Calls that only read take `&self`, so any number of threads can look up in one table at the same time. With
//! changes in between they share it in a [`RwLock`](std::sync::RwLock). In a [`ConcurrentTable`] threads look up during a change.
#![deny(unsafe_code)]
#![warn(missing_docs)]

mod changes;
mod files;
mod raw;
mod source;
mod views;

use raw::Read;

pub use changes::Change;
pub use files::FileError;
pub use source::{ConcurrentSource, Source};
pub use views::{View, FIRST_ROUTER, NUMBER_DISCARD, NUMBER_NO_ROUTE};

use std::cmp::Ordering;
use std::fmt;
use std::iter::FusedIterator;
use std::net::Ipv4Addr;
use std::str::FromStr;
use std::sync::{Mutex, MutexGuard, PoisonError};

/// The largest feed.
pub const MAX_FEED: u32 = 64;
/// The largest limit of a table: the number of routes of a feed.
pub const MAX_LIMIT: u32 = 1_000_000;
/// The largest length of a prefix.
pub const MAX_LENGTH: u8 = 32;

/// The reason why a call did nothing. Any call may return [`Error::Forked`], and any change [`Error::Barrier`].
#[derive(Clone, Copy, Debug, PartialEq, Eq, Hash)]
#[non_exhaustive]
pub enum Error {
    /// The feed already has a route to this prefix.
    Exists,
    /// The feed is at its limit.
    Full,
    /// The feed has no route to this prefix.
    Missing,
    /// A limit or a feed is out of range.
    Number,
    /// The call doesn't execute this command.
    Command,
    /// Out of memory.
    Memory,
    /// The text isn't a prefix.
    Text,
    /// The length of a prefix is over 32.
    Length,
    /// A bit past the length of a prefix is set.
    Bits,
    /// Two lists differ in length.
    Size,
    /// The table doesn't support the call, which needs a journal, or none, or an attached forwarding table.
    Kind,
    /// Another call uses the table. This occurs only while 1,024 calls that read run in threads after the 256th.
    Busy,
    /// The kernel refuses the call `membarrier`, which a change needs once other threads have read: a sandbox forbids it.
    Barrier,
    /// A thread of the parent process was changing the table when this process was forked.
    Forked,
}

impl Error {
    fn of(status: u32) -> Error {
        match status {
            3 => Error::Command,
            raw::NO_MEMORY => Error::Memory,
            raw::BAD_SIZE => Error::Size,
            raw::BAD_TEXT => Error::Text,
            raw::BAD_LENGTH => Error::Length,
            raw::BAD_BITS => Error::Bits,
            raw::NOT_ADDED => Error::Full,
            10 => Error::Kind,
            11 => Error::Busy,
            14 => Error::Barrier,
            15 => Error::Forked,
            _ => Error::Number,
        }
    }
}

impl fmt::Display for Error {
    fn fmt(&self, f: &mut fmt::Formatter<'_>) -> fmt::Result {
        f.write_str(match self {
            Error::Exists => "the feed has a route to this prefix",
            Error::Full => "the feed is at its limit",
            Error::Missing => "the feed has no route to this prefix",
            Error::Number => "a limit or a feed is out of range",
            Error::Command => "the call doesn't execute this command",
            Error::Memory => "out of memory",
            Error::Text => "the text isn't a prefix",
            Error::Length => "the length is over 32",
            Error::Bits => "a bit past the length is set",
            Error::Size => "two lists differ in length",
            Error::Kind => "the table doesn't support this call",
            Error::Busy => "another call uses the table",
            Error::Barrier => "the kernel refuses membarrier, which a change needs",
            Error::Forked => "another thread was changing the table at the fork",
        })
    }
}

impl std::error::Error for Error {}

/// The result of a call.
pub type Result<T> = std::result::Result<T, Error>;

/// Returns the version of the library, such as `0.3.0`.
#[must_use]
pub fn version() -> &'static str {
    raw::version()
}

/// Returns what the library was made of: the sum of the proved sources, the logic that proves them, and the sum of the C
/// files.
#[must_use]
pub fn build() -> &'static str {
    raw::build()
}

/// An IPv4 prefix: no bit of the base past the length is set.
#[derive(Clone, Copy, Debug, PartialEq, Eq, PartialOrd, Ord, Hash)]
pub struct Prefix {
    base: Ipv4Addr,
    len: u8,
}

impl Prefix {
    /// Returns the prefix with this base and length.
    ///
    /// # Errors
    /// [`Error::Length`], [`Error::Bits`].
    pub fn new(base: Ipv4Addr, len: u8) -> Result<Prefix> {
        if len > 32 {
            return Err(Error::Length);
        }
        if u64::from(u32::from(base)) % (1 << (32 - len)) != 0 {
            return Err(Error::Bits);
        }
        Ok(Prefix { base, len })
    }

    /// Returns the first address that it covers.
    #[must_use]
    pub fn base(&self) -> Ipv4Addr {
        self.base
    }

    /// Returns the number of leading bits that it fixes, 0 to 32.
    #[must_use]
    #[allow(clippy::len_without_is_empty)]
    pub fn len(&self) -> u8 {
        self.len
    }

    /// Returns true if it covers this address.
    #[must_use]
    pub fn contains(&self, address: Ipv4Addr) -> bool {
        let past = 32 - u32::from(self.len);
        u64::from(u32::from(self.base)) >> past == u64::from(u32::from(address)) >> past
    }

    /// Returns true if it covers every address of this prefix.
    #[must_use]
    pub fn contains_prefix(&self, other: Prefix) -> bool {
        self.len <= other.len && self.contains(other.base)
    }

    fn of(base: u32, len: u8) -> Prefix {
        Prefix {
            base: Ipv4Addr::from(base),
            len,
        }
    }
}

impl From<Ipv4Addr> for Prefix {
    fn from(address: Ipv4Addr) -> Prefix {
        Prefix {
            base: address,
            len: MAX_LENGTH,
        }
    }
}

impl TryFrom<(Ipv4Addr, u8)> for Prefix {
    type Error = Error;

    fn try_from((base, len): (Ipv4Addr, u8)) -> Result<Prefix> {
        Prefix::new(base, len)
    }
}

impl From<Prefix> for (Ipv4Addr, u8) {
    fn from(prefix: Prefix) -> (Ipv4Addr, u8) {
        (prefix.base, prefix.len)
    }
}

impl From<Ipv4Addr> for Hop {
    fn from(router: Ipv4Addr) -> Hop {
        Hop::Via(router)
    }
}

impl FromStr for Prefix {
    type Err = Error;

    fn from_str(text: &str) -> Result<Prefix> {
        let read = raw::prefix_parse(text.as_bytes()).map_err(Error::of)?;
        Ok(Prefix::of(read.base, read.len))
    }
}

impl fmt::Display for Prefix {
    fn fmt(&self, f: &mut fmt::Formatter<'_>) -> fmt::Result {
        write!(f, "{}/{}", self.base, self.len)
    }
}

/// The next hop of a route.
#[derive(Clone, Copy, Debug, PartialEq, Eq, PartialOrd, Ord, Hash)]
pub enum Hop {
    /// The router with this address.
    Via(Ipv4Addr),
    /// None: packets are discarded.
    Discard,
}

impl Hop {
    fn of(route: &raw::Route) -> Option<Hop> {
        match route.hop {
            1 => Some(Hop::Via(Ipv4Addr::from(route.via))),
            2 => Some(Hop::Discard),
            _ => None,
        }
    }

    fn numbers(self) -> (u8, u32) {
        match self {
            Hop::Via(address) => (1, u32::from(address)),
            Hop::Discard => (2, 0),
        }
    }
}

impl fmt::Display for Hop {
    fn fmt(&self, f: &mut fmt::Formatter<'_>) -> fmt::Result {
        match self {
            Hop::Via(address) => write!(f, "{address}"),
            Hop::Discard => f.write_str("discard"),
        }
    }
}

/// One feed's route to a prefix.
#[derive(Clone, Copy, Debug, PartialEq, Eq, Hash)]
pub struct Route {
    /// The addresses that it covers.
    pub prefix: Prefix,
    /// The feed that announced it, from 1.
    pub feed: u32,
    /// The preference number; the lowest is preferred.
    pub pref: u32,
    /// The next hop.
    pub hop: Hop,
}

impl Route {
    fn of(raw: &raw::Route) -> Option<Route> {
        Hop::of(raw).map(|hop| Route {
            prefix: Prefix::of(raw.base, raw.len),
            feed: raw.feed,
            pref: raw.pref,
            hop,
        })
    }
}

impl fmt::Display for Route {
    fn fmt(&self, f: &mut fmt::Formatter<'_>) -> fmt::Result {
        write!(
            f,
            "{} feed {} pref {} via {}",
            self.prefix, self.feed, self.pref, self.hop
        )
    }
}

/// A command of a feed.
#[derive(Clone, Copy, Debug, PartialEq, Eq, Hash)]
#[non_exhaustive]
pub enum Command {
    /// Inserts a route, unless the feed has one to this prefix or is at its limit.
    Add(Prefix, u32, Hop),
    /// Changes preference and next hop of the feed's route to this prefix.
    Replace(Prefix, u32, Hop),
    /// Removes the feed's route to this prefix.
    Withdraw(Prefix),
    /// Finds the best route of the longest prefix that covers the address.
    Lookup(Ipv4Addr),
    /// Counts the routes of all feeds.
    Dump,
    /// Removes all routes of the feed.
    Purge,
}

impl Command {
    fn numbers(self, feed: u32) -> raw::Command {
        let at = |operation, prefix: Prefix| raw::Command {
            operation,
            feed,
            base: u32::from(prefix.base),
            len: prefix.len,
            ..raw::Command::default()
        };
        let put = |operation, prefix, pref, hop: Hop| {
            let (hop, via) = hop.numbers();
            raw::Command {
                pref,
                via,
                hop,
                ..at(operation, prefix)
            }
        };
        let other = |operation, base| raw::Command {
            operation,
            feed,
            base,
            ..raw::Command::default()
        };
        match self {
            Command::Add(prefix, pref, hop) => put(1, prefix, pref, hop),
            Command::Replace(prefix, pref, hop) => put(2, prefix, pref, hop),
            Command::Withdraw(prefix) => at(3, prefix),
            Command::Lookup(address) => other(4, u32::from(address)),
            Command::Dump => other(5, 0),
            Command::Purge => other(6, 0),
        }
    }

    fn of(raw: &raw::Command) -> Command {
        let prefix = Prefix::of(raw.base, raw.len);
        let hop = if raw.hop == 1 {
            Hop::Via(Ipv4Addr::from(raw.via))
        } else {
            Hop::Discard
        };
        match raw.operation {
            1 => Command::Add(prefix, raw.pref, hop),
            2 => Command::Replace(prefix, raw.pref, hop),
            3 => Command::Withdraw(prefix),
            4 => Command::Lookup(Ipv4Addr::from(raw.base)),
            5 => Command::Dump,
            _ => Command::Purge,
        }
    }
}

/// Writes the command as a line of a feed file.
impl fmt::Display for Command {
    fn fmt(&self, f: &mut fmt::Formatter<'_>) -> fmt::Result {
        match self {
            Command::Add(prefix, pref, hop) => write!(f, "add {prefix} {pref} {hop}"),
            Command::Replace(prefix, pref, hop) => write!(f, "replace {prefix} {pref} {hop}"),
            Command::Withdraw(prefix) => write!(f, "withdraw {prefix}"),
            Command::Lookup(address) => write!(f, "lookup {address}"),
            Command::Dump => f.write_str("dump"),
            Command::Purge => f.write_str("purge"),
        }
    }
}

/// The reply to a command.
#[derive(Clone, Copy, Debug, PartialEq, Eq, Hash)]
#[non_exhaustive]
pub enum Reply {
    /// The route was inserted.
    Added,
    /// The feed already has a route to this prefix; nothing changed.
    Exists,
    /// The feed is at its limit; nothing changed.
    Full,
    /// The feed's route has the new preference and next hop.
    Replaced,
    /// The feed's route was removed.
    Withdrawn,
    /// The feed has no route to this prefix; nothing changed.
    Missing,
    /// The best route of the longest prefix that covers the address.
    Found(Route),
    /// No prefix covers the address.
    NoRoute,
    /// The number of routes of all feeds.
    Dumped(u32),
    /// This many routes of the feed were removed.
    Purged(u32),
}

impl fmt::Display for Reply {
    fn fmt(&self, f: &mut fmt::Formatter<'_>) -> fmt::Result {
        match self {
            Reply::Added => f.write_str("added"),
            Reply::Exists => f.write_str("exists"),
            Reply::Full => f.write_str("full"),
            Reply::Replaced => f.write_str("replaced"),
            Reply::Withdrawn => f.write_str("withdrawn"),
            Reply::Missing => f.write_str("missing"),
            Reply::Found(route) => write!(f, "route {route}"),
            Reply::NoRoute => f.write_str("no route"),
            Reply::Dumped(count) => write!(f, "dumped {count}"),
            Reply::Purged(count) => write!(f, "purged {count}"),
        }
    }
}

impl PartialOrd for Route {
    fn partial_cmp(&self, other: &Route) -> Option<Ordering> {
        Some(self.cmp(other))
    }
}

/// The order of a table's lists: base, length, preference and feed.
impl Ord for Route {
    fn cmp(&self, other: &Route) -> Ordering {
        let key = |one: &Route| (one.prefix, one.pref, one.feed, one.hop);
        key(self).cmp(&key(other))
    }
}

impl Reply {
    /// Returns the error of a reply that says that nothing changed.
    fn done(self) -> Result<Reply> {
        match self {
            Reply::Exists => Err(Error::Exists),
            Reply::Full => Err(Error::Full),
            Reply::Missing => Err(Error::Missing),
            other => Ok(other),
        }
    }

    /// Returns the reply, or the error of a command without a reply.
    fn of(raw: &raw::Reply) -> Result<Reply> {
        Ok(match raw.code {
            1 => Reply::Added,
            2 => Reply::Exists,
            3 => Reply::Full,
            4 => Reply::Replaced,
            5 => Reply::Withdrawn,
            6 => Reply::Missing,
            7 => Route::of(&raw.route).map_or(Reply::NoRoute, Reply::Found),
            8 => Reply::NoRoute,
            9 => Reply::Dumped(raw.count),
            10 => Reply::Purged(raw.count),
            _ => return Err(Error::of(raw.count)),
        })
    }
}

/// An entry of the journal.
#[derive(Clone, Copy, Debug, PartialEq, Eq, Hash)]
#[non_exhaustive]
pub struct Entry {
    /// The feed that executed it.
    pub feed: u32,
    /// The command.
    pub command: Command,
    /// The reply to it.
    pub reply: Reply,
}

/// How the answers of two tables are compared.
#[derive(Clone, Copy, Debug, PartialEq, Eq, Hash)]
#[non_exhaustive]
pub enum By {
    /// By next hop.
    Hop,
    /// By the whole route.
    Route,
}

/// The answer of a table for the addresses of a range.
#[derive(Clone, Copy, Debug, PartialEq, Eq, Hash)]
pub enum Answer {
    /// No route covers them.
    NoRoute,
    /// Their next hop.
    Hop(Hop),
    /// This is their best route.
    Route(Route),
}

impl Answer {
    fn of(by: By, raw: &raw::Route) -> Answer {
        match by {
            By::Hop => Hop::of(raw).map_or(Answer::NoRoute, Answer::Hop),
            By::Route => Route::of(raw).map_or(Answer::NoRoute, Answer::Route),
        }
    }
}

/// A range of addresses that two tables answer differently.
#[derive(Clone, Copy, Debug, PartialEq, Eq, Hash)]
#[non_exhaustive]
pub struct Difference {
    /// Its first address.
    pub first: Ipv4Addr,
    /// Its last address.
    pub last: Ipv4Addr,
    /// The old table's answer for each of them.
    pub before: Answer,
    /// The new table's answer for each of them.
    pub after: Answer,
}

/// The prefixes of a selection.
#[derive(Clone, Copy, Debug, PartialEq, Eq, Hash)]
#[non_exhaustive]
pub enum Part {
    /// All.
    All,
    /// This prefix and longer prefixes inside it.
    Within(Prefix),
    /// This prefix and shorter prefixes that contain it.
    Covering(Prefix),
    /// Only this prefix.
    Exact(Prefix),
}

/// A selection of routes.
#[derive(Clone, Copy, Debug, PartialEq, Eq, Hash)]
pub struct Selection {
    /// Their prefixes.
    pub part: Part,
    /// Their feed, or `None` for all feeds.
    pub feed: Option<u32>,
    /// Their next hop, or `None` for all next hops.
    pub hop: Option<Hop>,
    /// True to select only the best route of each prefix; with a feed or a next hop, only those best routes that belong to the
    /// feed and use the next hop.
    pub only_best: bool,
}

impl Selection {
    /// Selects all routes to these prefixes.
    #[must_use]
    pub fn of(part: Part) -> Selection {
        Selection {
            part,
            feed: None,
            hop: None,
            only_best: false,
        }
    }

    /// Returns the numbers for C. C reads feed 0 as any feed, so a feed 0 becomes one that doesn't exist.
    fn numbers(self) -> raw::Selection {
        let (part, prefix) = match self.part {
            Part::All => (0, Prefix::of(0, 0)),
            Part::Within(prefix) => (1, prefix),
            Part::Covering(prefix) => (2, prefix),
            Part::Exact(prefix) => (3, prefix),
        };
        raw::Selection {
            part,
            feed: self
                .feed
                .map_or(0, |feed| if feed == 0 { u32::MAX } else { feed }),
            base: u32::from(prefix.base),
            len: prefix.len,
            only_best: u8::from(self.only_best),
        }
    }
}

/// The number of best routes that use a next hop.
#[derive(Clone, Copy, Debug, PartialEq, Eq, Hash)]
pub struct HopCount {
    /// The next hop.
    pub hop: Hop,
    /// The number of the best routes that use it.
    pub routes: u32,
}

impl HopCount {
    fn of(raw: &raw::HopCount) -> HopCount {
        let hop = match raw.hop {
            1 => Hop::Via(Ipv4Addr::from(raw.via)),
            _ => Hop::Discard,
        };
        HopCount {
            hop,
            routes: raw.routes,
        }
    }
}

/// A routing table.
#[derive(Debug)]
pub struct Table(raw::Handle);

impl Table {
    /// Returns an empty table for up to `limit` routes of each feed, 1 to 1,000,000. It keeps no journal, and
    /// has fewer than two nodes for each route, however long it is used.
    ///
    /// # Errors
    /// [`Error::Number`] if the limit is out of range, [`Error::Memory`].
    pub fn new(limit: u32) -> Result<Table> {
        raw::Handle::new(limit, 0).map(Table).map_err(Error::of)
    }

    /// Returns an empty table with a journal that keeps every answered command, 56 bytes each.
    ///
    /// # Errors
    /// [`Error::Number`] if the limit is out of range, [`Error::Memory`].
    pub fn with_journal(limit: u32) -> Result<Table> {
        raw::Handle::new(limit, 1).map(Table).map_err(Error::of)
    }

    /// Executes a command of the feed and returns its reply.
    ///
    /// # Errors
    /// [`Error::Number`] if the feed is out of range, [`Error::Memory`], [`Error::Busy`].
    pub fn apply(&mut self, feed: u32, command: Command) -> Result<Reply> {
        let reply = self.0.apply(&command.numbers(feed)).map_err(Error::of)?;
        Reply::of(&reply)
    }

    /// Executes the commands in order and returns the outcome of each. A command that fails doesn't stop the others.
    ///
    /// # Errors
    /// [`Error::Busy`]. The error of a command is its outcome, as [`Table::apply`] returns it.
    pub fn apply_each(&mut self, commands: &[(u32, Command)]) -> Result<Vec<Result<Reply>>> {
        outcomes(commands, |asked, replies| self.0.apply_each(asked, replies))
    }

    /// Adds a route.
    ///
    /// # Errors
    /// [`Error::Exists`], [`Error::Full`], and those of [`Table::apply`].
    pub fn add(&mut self, feed: u32, prefix: Prefix, pref: u32, hop: Hop) -> Result<Reply> {
        self.apply(feed, Command::Add(prefix, pref, hop))?.done()
    }

    /// Changes preference and next hop of the feed's route.
    ///
    /// # Errors
    /// [`Error::Missing`], and those of [`Table::apply`].
    pub fn replace(&mut self, feed: u32, prefix: Prefix, pref: u32, hop: Hop) -> Result<Reply> {
        self.apply(feed, Command::Replace(prefix, pref, hop))?
            .done()
    }

    /// Adds a route, or changes the feed's route to this prefix.
    ///
    /// # Errors
    /// [`Error::Full`], and those of [`Table::apply`].
    pub fn put(&mut self, feed: u32, prefix: Prefix, pref: u32, hop: Hop) -> Result<Reply> {
        match self.add(feed, prefix, pref, hop) {
            Err(Error::Exists) => self.replace(feed, prefix, pref, hop),
            other => other,
        }
    }

    /// Removes the feed's route.
    ///
    /// # Errors
    /// [`Error::Missing`], and those of [`Table::apply`].
    pub fn withdraw(&mut self, feed: u32, prefix: Prefix) -> Result<Reply> {
        self.apply(feed, Command::Withdraw(prefix))?.done()
    }

    /// Returns the journal of a table that keeps one.
    ///
    /// # Errors
    /// [`Error::Kind`] if the table keeps none, [`Error::Busy`].
    pub fn journal(&self) -> Result<Vec<Entry>> {
        let found = whole(0, |part| self.0.journal(part))?;
        found.iter().map(entry).collect()
    }

    /// Reserves capacity for this many further journal entries, if there is a journal, so that they don't allocate later.
    ///
    /// # Errors
    /// [`Error::Memory`], [`Error::Busy`].
    pub fn reserve(&mut self, entries: usize) -> Result<()> {
        self.0.reserve(entries).map_err(Error::of)
    }

    /// Returns the ranges of addresses that this table and a newer one answer differently, one after another. A table
    /// and itself have none.
    pub fn differences<'a>(&'a self, new: &'a Table, by: By) -> Differences<'a> {
        Differences {
            sides: Sides::Plain(&self.0, &new.0),
            by,
            from: (!std::ptr::eq(self, new)).then_some(0),
        }
    }

    /// Attaches a forwarding table of 64 MiB or more, if none is attached. From then on every command updates it, and look-ups use it.
    /// If a command finds no memory for the update, the forwarding table is freed until this is called again.
    ///
    /// # Errors
    /// [`Error::Kind`] if the table keeps a journal, [`Error::Memory`], [`Error::Busy`].
    pub fn fib_attach(&mut self) -> Result<()> {
        self.0.fib_attach().map_err(Error::of)
    }

    fn loaded(&mut self, feed: u32, text: &[u8]) -> (u32, raw::Loaded) {
        self.0.load(feed, text)
    }

    /// Returns a forwarding table with the current answers of this table.
    ///
    /// # Errors
    /// [`Error::Memory`], [`Error::Busy`].
    pub fn fib_new(&self) -> Result<Fib> {
        self.0.fib_new().map(Fib).map_err(Error::of)
    }
}

/// A routing table that threads read during its changes.
///
/// A call that reads never waits, is never [`Error::Busy`], and returns what one published table holds: the table before a change or
/// after it. [`ConcurrentTable::apply_each`] publishes its commands at once. A change waits for other changes, and for calls that began
/// to read before the previous change. An iterator over routes reads each page from the table that is published then. It takes twice
/// the memory of a [`Table`]. If a change returns [`Error::Memory`], it is not made.
///
/// ```
/// use std::net::Ipv4Addr;
/// use yarib::{Command, ConcurrentTable, Hop};
///
/// let (table, router) = (ConcurrentTable::new(1_000)?, Hop::from(Ipv4Addr::new(192, 0, 2, 1)));
/// let add = |text: &str| Ok::<_, yarib::Error>((1, Command::Add(text.parse()?, 0, router)));
/// let both = [add("10.0.0.0/8")?, add("11.0.0.0/8")?];
/// std::thread::scope(|scope| {
///     scope.spawn(|| {
///         let answers = table.look_up_each(&[0x0a00_0001, 0x0b00_0001]).unwrap();
///         assert_eq!(answers[0].is_some(), answers[1].is_some());
///     });
///     table.apply_each(&both).unwrap();
/// });
/// # Ok::<(), yarib::Error>(())
/// ```
#[derive(Debug)]
pub struct ConcurrentTable(raw::Concurrent, Mutex<()>);

impl ConcurrentTable {
    /// Returns an empty table for up to `limit` routes of each feed, 1 to 1,000,000.
    ///
    /// # Errors
    /// [`Error::Number`] if the limit is out of range, [`Error::Memory`].
    pub fn new(limit: u32) -> Result<ConcurrentTable> {
        let made = raw::Concurrent::new(limit).map_err(Error::of)?;
        Ok(ConcurrentTable(made, Mutex::new(())))
    }

    /// Waits until no other thread changes the table.
    fn turn(&self) -> MutexGuard<'_, ()> {
        self.1.lock().unwrap_or_else(PoisonError::into_inner)
    }

    /// Executes a command of the feed, publishes the table, and returns the reply.
    ///
    /// # Errors
    /// [`Error::Number`] if the feed is out of range, [`Error::Memory`], [`Error::Busy`].
    pub fn apply(&self, feed: u32, command: Command) -> Result<Reply> {
        let asked = command.numbers(feed);
        let _turn = self.turn();
        Reply::of(&self.0.apply(&asked).map_err(Error::of)?)
    }

    /// Executes the commands in order, publishes the table once, and returns the outcome of each. A command that fails doesn't stop
    /// the others.
    ///
    /// # Errors
    /// [`Error::Memory`], [`Error::Busy`]. The error of a command is its outcome.
    pub fn apply_each(&self, commands: &[(u32, Command)]) -> Result<Vec<Result<Reply>>> {
        outcomes(commands, |asked, replies| {
            let _turn = self.turn();
            self.0.apply_each(asked, replies)
        })
    }

    /// Adds a route.
    ///
    /// # Errors
    /// [`Error::Exists`], [`Error::Full`], and those of [`ConcurrentTable::apply`].
    pub fn add(&self, feed: u32, prefix: Prefix, pref: u32, hop: Hop) -> Result<Reply> {
        self.apply(feed, Command::Add(prefix, pref, hop))?.done()
    }

    /// Changes preference and next hop of the feed's route.
    ///
    /// # Errors
    /// [`Error::Missing`], and those of [`ConcurrentTable::apply`].
    pub fn replace(&self, feed: u32, prefix: Prefix, pref: u32, hop: Hop) -> Result<Reply> {
        self.apply(feed, Command::Replace(prefix, pref, hop))?
            .done()
    }

    /// Adds a route, or changes the feed's route to this prefix.
    ///
    /// # Errors
    /// [`Error::Full`], and those of [`ConcurrentTable::apply`].
    pub fn put(&self, feed: u32, prefix: Prefix, pref: u32, hop: Hop) -> Result<Reply> {
        loop {
            match self.add(feed, prefix, pref, hop) {
                Err(Error::Exists) => {}
                other => return other,
            }
            // Another thread may withdraw the route between the two commands.
            match self.replace(feed, prefix, pref, hop) {
                Err(Error::Missing) => {}
                other => return other,
            }
        }
    }

    /// Removes the feed's route.
    ///
    /// # Errors
    /// [`Error::Missing`], and those of [`ConcurrentTable::apply`].
    pub fn withdraw(&self, feed: u32, prefix: Prefix) -> Result<Reply> {
        self.apply(feed, Command::Withdraw(prefix))?.done()
    }

    fn loaded(&self, feed: u32, text: &[u8]) -> (u32, raw::Loaded) {
        let _turn = self.turn();
        self.0.load(feed, text)
    }

    /// Returns a table with the published routes, for up to `limit` routes of each feed.
    ///
    /// # Errors
    /// [`Error::Full`] if a feed has more routes, [`Error::Number`] if the limit is out of range, [`Error::Memory`].
    pub fn copy(&self, limit: u32) -> Result<Table> {
        self.0.copy(limit).map(Table).map_err(Error::of)
    }

    /// Publishes the routes of a table at once, which was loaded aside, for up to `limit` routes of each feed: each call that reads
    /// finds those before, or the new ones.
    ///
    /// # Errors
    /// Those of [`ConcurrentTable::copy`], and [`Error::Busy`]. Nothing has changed then.
    pub fn replace_all(&self, other: &Table, limit: u32) -> Result<()> {
        let _turn = self.turn();
        self.0.replace_all(limit, &other.0).map_err(Error::of)
    }

    /// Returns the ranges of addresses that this table and a newer one answer differently, as [`Table::differences`] does. Each is
    /// that of the tables that are published when it is found: to compare tables that change, copy them before.
    pub fn differences<'a>(&'a self, new: &'a ConcurrentTable, by: By) -> Differences<'a> {
        Differences {
            sides: Sides::Concurrent(&self.0, &new.0),
            by,
            from: (!std::ptr::eq(self, new)).then_some(0),
        }
    }

    /// Attaches a forwarding table of 64 MiB or more to each of its two tables, as [`Table::fib_attach`] does.
    ///
    /// # Errors
    /// [`Error::Memory`], [`Error::Busy`].
    pub fn fib_attach(&self) -> Result<()> {
        let _turn = self.turn();
        self.0.fib_attach().map_err(Error::of)
    }
}

fn outcomes(
    commands: &[(u32, Command)],
    call: impl FnOnce(&[raw::Command], &mut [raw::Reply]) -> std::result::Result<(), u32>,
) -> Result<Vec<Result<Reply>>> {
    let asked: Vec<raw::Command> = commands
        .iter()
        .map(|(feed, command)| command.numbers(*feed))
        .collect();
    let mut replies = vec![raw::Reply::default(); asked.len()];
    call(&asked, &mut replies).map_err(Error::of)?;
    Ok(replies.iter().map(Reply::of).collect())
}

/// Defines the calls that read a table.
macro_rules! reading_calls {
    ($table:ident) => {
        impl $table {
            /// Returns the best route of the longest prefix that contains this prefix.
            ///
            /// # Errors
            /// [`Error::Memory`], [`Error::Busy`].
            pub fn look_up_prefix(&self, prefix: Prefix) -> Result<Option<Route>> {
                let asked = Selection {
                    only_best: true,
                    ..Selection::of(Part::Covering(prefix))
                };
                Ok(self.select(asked)?.pop())
            }

            /// Returns the best route of the longest prefix that covers the address.
            ///
            /// # Errors
            /// [`Error::Busy`].
            pub fn look_up(&self, address: Ipv4Addr) -> Result<Option<Route>> {
                let found = self.0.look_up_one(u32::from(address)).map_err(Error::of)?;
                Ok(Route::of(&found))
            }

            /// Returns the answers for all these addresses, in less time than one call each.
            ///
            /// # Errors
            /// [`Error::Busy`].
            pub fn look_up_each(&self, addresses: &[u32]) -> Result<Vec<Option<Route>>> {
                answers(&self.0, addresses)
            }

            /// Returns the answers for all these addresses, as `look_up_each` does after copying them.
            ///
            /// # Errors
            /// [`Error::Busy`].
            pub fn look_up_addresses(&self, addresses: &[Ipv4Addr]) -> Result<Vec<Option<Route>>> {
                answers(&self.0, &numbers(addresses))
            }

            /// Returns all routes whose prefix covers the address, the best first.
            ///
            /// # Errors
            /// [`Error::Memory`], [`Error::Busy`].
            pub fn look_up_all(&self, address: Ipv4Addr) -> Result<Vec<Route>> {
                let found = whole(64, |part| self.0.look_up_all(u32::from(address), part))?;
                Ok(found.iter().filter_map(Route::of).collect())
            }

            fn saved(&self, feed: u32) -> Result<Vec<u8>> {
                self.0.save(feed).map_err(Error::of)
            }

            /// Returns the number of routes.
            ///
            /// # Errors
            /// [`Error::Busy`].
            pub fn count(&self) -> Result<usize> {
                self.0.count().map_err(Error::of)
            }

            /// Returns all routes, sorted by base, length, preference and feed.
            ///
            /// # Errors
            /// [`Error::Memory`], [`Error::Busy`].
            pub fn routes(&self) -> Result<Vec<Route>> {
                let size = self.count()?;
                let found = whole(size, |part| self.0.routes(part))?;
                Ok(found.iter().filter_map(Route::of).collect())
            }

            /// Returns the routes in the order of `routes` from the position of this prefix, preference and feed on; there need not be such
            /// a route. Preference and feed 0 are before all routes to the prefix. Allocates memory for a few routes at a time.
            pub fn routes_from(&self, prefix: Prefix, pref: u32, feed: u32) -> RoutesFrom<'_> {
                let place = raw::Route {
                    base: u32::from(prefix.base),
                    len: prefix.len,
                    pref,
                    feed,
                    ..raw::Route::default()
                };
                RoutesFrom {
                    table: &self.0,
                    place: Some(place),
                    page: Vec::new().into_iter(),
                }
            }

            /// Returns the selected routes in the order of `routes`.
            ///
            /// # Errors
            /// [`Error::Number`] if the feed is out of range, [`Error::Memory`], [`Error::Busy`].
            pub fn select(&self, asked: Selection) -> Result<Vec<Route>> {
                let hop = asked.hop.map_or((0, 0), Hop::numbers);
                let asked = asked.numbers();
                let found = whole(64, |part| self.0.select(&asked, hop, part))?;
                Ok(found.iter().filter_map(Route::of).collect())
            }

            /// Returns how many best routes use each next hop: first [`Hop::Discard`], then the routers by their addresses. A next
            /// hop that no best route uses is left out.
            ///
            /// # Errors
            /// [`Error::Memory`], [`Error::Busy`].
            pub fn hop_counts(&self) -> Result<Vec<HopCount>> {
                let found = whole(64, |part| self.0.hop_counts(part))?;
                Ok(found.iter().map(HopCount::of).collect())
            }

            /// Returns an estimate of its size in bytes, including what is attached. A concurrent table is two tables.
            ///
            /// # Errors
            /// [`Error::Busy`].
            pub fn memory(&self) -> Result<usize> {
                self.0.memory().map_err(Error::of)
            }

            /// Returns true if a forwarding table is attached, which look-ups use. After `fib_attach` this is false only once a change found
            /// no memory to update it. A concurrent table answers for the published one of its two tables.
            ///
            /// # Errors
            /// [`Error::Busy`].
            pub fn fib_is_attached(&self) -> Result<bool> {
                self.0.fib_is_attached().map_err(Error::of)
            }

            /// Writes the router for each address, both as numbers: `discard` if packets are discarded, and `no_route` if no prefix
            /// covers the address. Choose two numbers that no route has as its router.
            ///
            /// # Errors
            /// [`Error::Size`] if the lists differ in length, [`Error::Busy`].
            pub fn hops(
                &self,
                addresses: &[u32],
                no_route: u32,
                discard: u32,
                hops: &mut [u32],
            ) -> Result<()> {
                self.0
                    .hops(addresses, (no_route, discard), hops)
                    .map_err(Error::of)
            }

            /// Returns a view of the current answers.
            ///
            /// # Errors
            /// [`Error::Kind`] if no forwarding table is attached (`fib_attach`), [`Error::Memory`], [`Error::Busy`].
            pub fn view_new(&self) -> Result<View> {
                View::of(&self.0)
            }
        }
    };
}

reading_calls!(Table);
reading_calls!(ConcurrentTable);

fn entry(raw: &raw::Entry) -> Result<Entry> {
    Ok(Entry {
        feed: raw.command.feed,
        command: Command::of(&raw.command),
        reply: Reply::of(&raw.reply)?,
    })
}

fn numbers(addresses: &[Ipv4Addr]) -> Vec<u32> {
    addresses.iter().copied().map(u32::from).collect()
}

fn answers(handle: &impl raw::Read, addresses: &[u32]) -> Result<Vec<Option<Route>>> {
    let mut found = vec![raw::Route::default(); addresses.len()];
    handle.look_up(addresses, &mut found).map_err(Error::of)?;
    Ok(found.iter().map(Route::of).collect())
}

/// Returns a whole list. The call reports its length; if the list is longer than `size`, it is called again.
fn whole<T: Clone + Default>(
    size: usize,
    mut call: impl FnMut(&mut [T]) -> std::result::Result<usize, u32>,
) -> Result<Vec<T>> {
    let mut found = vec![T::default(); size];
    let mut total = call(&mut found).map_err(Error::of)?;
    while total > found.len() {
        found.resize(total, T::default());
        total = call(&mut found).map_err(Error::of)?;
    }
    found.truncate(total);
    Ok(found)
}

/// The number of routes that an iterator over them fetches at once.
const PAGE: usize = 256;

/// The routes of a table from a position on.
#[derive(Debug)]
#[must_use = "an iterator reads nothing until it is used"]
pub struct RoutesFrom<'a> {
    table: &'a dyn raw::Read,
    /// The position of the next page, if there is one.
    place: Option<raw::Route>,
    page: std::vec::IntoIter<raw::Route>,
}

impl RoutesFrom<'_> {
    /// Fetches the next page, if there is one. A page that isn't full is the last.
    fn turn(&mut self) -> Result<()> {
        let Some(place) = self.place.take() else {
            return Ok(());
        };
        let mut page = vec![raw::Route::default(); PAGE];
        let used = self
            .table
            .routes_from(&place, &mut page)
            .map_err(Error::of)?;
        page.truncate(used);
        self.place = page.last().filter(|_| used == PAGE).copied();
        if let Some(last) = &mut self.place {
            last.feed += 1;
        }
        self.page = page.into_iter();
        Ok(())
    }
}

/// An error is the last item.
impl Iterator for RoutesFrom<'_> {
    type Item = Result<Route>;

    fn next(&mut self) -> Option<Result<Route>> {
        if self.page.len() == 0 {
            if let Err(error) = self.turn() {
                return Some(Err(error));
            }
        }
        self.page.next().as_ref().and_then(Route::of).map(Ok)
    }
}

impl FusedIterator for RoutesFrom<'_> {}

/// The ranges of addresses that two tables answer differently.
#[derive(Debug)]
#[must_use = "an iterator reads nothing until it is used"]
pub struct Differences<'a> {
    sides: Sides<'a>,
    by: By,
    from: Option<u32>,
}

/// The old table and the new one.
#[derive(Debug)]
enum Sides<'a> {
    Plain(&'a raw::Handle, &'a raw::Handle),
    Concurrent(&'a raw::Concurrent, &'a raw::Concurrent),
}

/// An error is the last item.
impl Iterator for Differences<'_> {
    type Item = Result<Difference>;

    fn next(&mut self) -> Option<Result<Difference>> {
        let by = u32::from(self.by == By::Route);
        let from = self.from.take()?;
        let found = match self.sides {
            Sides::Plain(old, new) => old.first_difference(new, by, from),
            Sides::Concurrent(old, new) => old.first_difference(new, by, from),
        };
        let found = match found {
            Ok(found) => found,
            Err(raw::NONE_LEFT) => return None,
            Err(status) => return Some(Err(Error::of(status))),
        };
        self.from = found.last.checked_add(1);
        Some(Ok(Difference {
            first: Ipv4Addr::from(found.first),
            last: Ipv4Addr::from(found.last),
            before: Answer::of(self.by, &found.before),
            after: Answer::of(self.by, &found.after),
        }))
    }
}

impl FusedIterator for Differences<'_> {}

/// A table's answers at the time when this was created: 64 MiB, for look-ups with two or three memory reads.
#[derive(Debug)]
pub struct Fib(raw::Handle);

impl Fib {
    /// Returns another handle to it, for another thread. The memory is freed with the last handle.
    ///
    /// # Errors
    /// [`Error::Memory`], [`Error::Busy`].
    pub fn try_clone(&self) -> Result<Fib> {
        self.0.fib_clone().map(Fib).map_err(Error::of)
    }

    /// Writes the router for each address, as [`Table::hops`] does. For many addresses this is faster than `look_up_each`.
    ///
    /// # Errors
    /// [`Error::Size`] if the lists differ in length, [`Error::Busy`].
    pub fn hops(
        &self,
        addresses: &[u32],
        no_route: u32,
        discard: u32,
        hops: &mut [u32],
    ) -> Result<()> {
        self.0
            .hops(addresses, (no_route, discard), hops)
            .map_err(Error::of)
    }

    /// Returns a view of its answers.
    ///
    /// # Errors
    /// [`Error::Memory`], [`Error::Busy`].
    pub fn view_new(&self) -> Result<View> {
        View::of(&self.0)
    }

    /// Returns the best route of the longest prefix that covers the address.
    ///
    /// # Errors
    /// [`Error::Busy`].
    pub fn look_up(&self, address: Ipv4Addr) -> Result<Option<Route>> {
        let found = self.0.look_up_one(u32::from(address)).map_err(Error::of)?;
        Ok(Route::of(&found))
    }

    /// Returns the answers for all these addresses.
    ///
    /// # Errors
    /// [`Error::Busy`].
    pub fn look_up_each(&self, addresses: &[u32]) -> Result<Vec<Option<Route>>> {
        answers(&self.0, addresses)
    }

    /// Returns the answers for all these addresses, as `look_up_each` does after copying them.
    ///
    /// # Errors
    /// [`Error::Busy`].
    pub fn look_up_addresses(&self, addresses: &[Ipv4Addr]) -> Result<Vec<Option<Route>>> {
        answers(&self.0, &numbers(addresses))
    }

    /// Returns its size in bytes, counted once for all its handles.
    ///
    /// # Errors
    /// [`Error::Busy`].
    pub fn memory(&self) -> Result<usize> {
        self.0.memory().map_err(Error::of)
    }
}

#[cfg(test)]
mod tests {
    use super::Error;

    #[test]
    fn refusals_of_the_system_are_errors_of_their_own() {
        assert_eq!(Error::of(11), Error::Busy);
        assert_eq!(Error::of(14), Error::Barrier);
        assert_eq!(Error::of(15), Error::Forked);
        assert_eq!(Error::of(2), Error::Number);
        assert!(Error::Barrier.to_string().contains("membarrier"));
        assert!(Error::Forked.to_string().contains("fork"));
    }
}
