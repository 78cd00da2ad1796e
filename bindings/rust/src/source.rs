//! Sources of more routes than a feed may have.
use crate::{Command, ConcurrentTable, Error, Hop, Prefix, Reply, Result, Route, Table, MAX_FEED};

/// A source of more routes than a feed may have, in consecutive feeds of a table. Each prefix belongs to exactly one of the feeds, so
/// the table's answers are those of a single feed without its limit, but for the feed's number.
///
/// A route is refused by [`Error::Full`] as soon as the feed of its prefix is at its limit: usually about 1,990,000 routes fit into
/// two feeds of [`MAX_LIMIT`](crate::MAX_LIMIT).
///
/// ```
/// use yarib::{Hop, Source, Table};
///
/// let (mut table, source) = (Table::new(yarib::MAX_LIMIT)?, Source::new(1, 2)?);
/// source.add(&mut table, "10.0.0.0/8".parse()?, 10, Hop::Discard)?;
/// # Ok::<(), yarib::Error>(())
/// ```
#[derive(Clone, Copy, Debug, PartialEq, Eq, Hash)]
pub struct Source {
    first: u32,
    feeds: u32,
}

impl Source {
    /// Returns a source in this many feeds, from the first one on. No other caller may change these feeds.
    ///
    /// # Errors
    /// [`Error::Number`] if they aren't feeds of a table.
    pub fn new(first: u32, feeds: u32) -> Result<Source> {
        if first < 1 || feeds < 1 || first > MAX_FEED || feeds > MAX_FEED + 1 - first {
            return Err(Error::Number);
        }
        Ok(Source { first, feeds })
    }

    /// Returns the source in a concurrent table.
    #[must_use]
    pub fn of(self, table: &ConcurrentTable) -> ConcurrentSource<'_> {
        ConcurrentSource {
            table,
            source: self,
        }
    }

    fn feeds(self) -> std::ops::Range<u32> {
        self.first..self.first + self.feeds
    }

    /// Returns the feed that a prefix belongs to.
    #[must_use]
    pub fn feed_of(&self, prefix: Prefix) -> u32 {
        let key = u32::from(prefix.base()).wrapping_add(u32::from(prefix.len()));
        let mixed = key.wrapping_mul(2_654_435_769);
        // The quotient is less than `feeds`.
        self.first + u32::try_from((u64::from(mixed) * u64::from(self.feeds)) >> 32).unwrap_or(0)
    }

    /// Adds a route.
    ///
    /// # Errors
    /// Those of [`Table::add`].
    pub fn add(&self, table: &mut Table, prefix: Prefix, pref: u32, hop: Hop) -> Result<Reply> {
        table.add(self.feed_of(prefix), prefix, pref, hop)
    }

    /// Changes preference and next hop of the source's route.
    ///
    /// # Errors
    /// Those of [`Table::replace`].
    pub fn replace(&self, table: &mut Table, prefix: Prefix, pref: u32, hop: Hop) -> Result<Reply> {
        table.replace(self.feed_of(prefix), prefix, pref, hop)
    }

    /// Adds a route, or changes the source's route to this prefix.
    ///
    /// # Errors
    /// Those of [`Table::put`].
    pub fn put(&self, table: &mut Table, prefix: Prefix, pref: u32, hop: Hop) -> Result<Reply> {
        table.put(self.feed_of(prefix), prefix, pref, hop)
    }

    /// Removes the source's route.
    ///
    /// # Errors
    /// Those of [`Table::withdraw`].
    pub fn withdraw(&self, table: &mut Table, prefix: Prefix) -> Result<Reply> {
        table.withdraw(self.feed_of(prefix), prefix)
    }

    /// Removes all routes of the source and returns their number.
    ///
    /// # Errors
    /// Those of [`Table::apply`].
    pub fn purge(&self, table: &mut Table) -> Result<u32> {
        let mut count = 0;
        for feed in self.first..self.first + self.feeds {
            if let Reply::Purged(removed) = table.apply(feed, Command::Purge)? {
                count += removed;
            }
        }
        Ok(count)
    }

    /// Returns the routes of the source, sorted by base and length.
    ///
    /// # Errors
    /// Those of [`Table::routes`].
    pub fn routes(&self, table: &Table) -> Result<Vec<Route>> {
        let mut routes = table.routes()?;
        routes.retain(|route| (self.first..self.first + self.feeds).contains(&route.feed));
        Ok(routes)
    }
}

/// A source in a [`ConcurrentTable`], made by [`Source::of`]. Several threads may use it: all its calls take `&self`.
///
/// ```
/// use yarib::{ConcurrentTable, Hop, Source};
///
/// let table = ConcurrentTable::new(yarib::MAX_LIMIT)?;
/// let source = Source::new(1, 2)?.of(&table);
/// source.put("10.0.0.0/8".parse()?, 10, Hop::Discard)?;
/// assert_eq!(source.routes()?.len(), 1);
/// # Ok::<(), yarib::Error>(())
/// ```
#[derive(Clone, Copy, Debug)]
pub struct ConcurrentSource<'a> {
    table: &'a ConcurrentTable,
    source: Source,
}

impl ConcurrentSource<'_> {
    /// Adds a route.
    ///
    /// # Errors
    /// Those of [`ConcurrentTable::add`].
    pub fn add(&self, prefix: Prefix, pref: u32, hop: Hop) -> Result<Reply> {
        self.table
            .add(self.source.feed_of(prefix), prefix, pref, hop)
    }

    /// Changes preference and next hop of the source's route.
    ///
    /// # Errors
    /// Those of [`ConcurrentTable::replace`].
    pub fn replace(&self, prefix: Prefix, pref: u32, hop: Hop) -> Result<Reply> {
        self.table
            .replace(self.source.feed_of(prefix), prefix, pref, hop)
    }

    /// Adds a route, or changes the source's route to this prefix.
    ///
    /// # Errors
    /// Those of [`ConcurrentTable::put`].
    pub fn put(&self, prefix: Prefix, pref: u32, hop: Hop) -> Result<Reply> {
        self.table
            .put(self.source.feed_of(prefix), prefix, pref, hop)
    }

    /// Removes the source's route.
    ///
    /// # Errors
    /// Those of [`ConcurrentTable::withdraw`].
    pub fn withdraw(&self, prefix: Prefix) -> Result<Reply> {
        self.table.withdraw(self.source.feed_of(prefix), prefix)
    }

    /// Removes all routes of the source, publishes the table once, and returns their number.
    ///
    /// # Errors
    /// Those of [`ConcurrentTable::apply_each`].
    pub fn purge(&self) -> Result<u32> {
        let commands: Vec<_> = self
            .source
            .feeds()
            .map(|feed| (feed, Command::Purge))
            .collect();
        let mut count = 0;
        for outcome in self.table.apply_each(&commands)? {
            if let Reply::Purged(removed) = outcome? {
                count += removed;
            }
        }
        Ok(count)
    }

    /// Returns the routes of the source in one published table, sorted by base and length.
    ///
    /// # Errors
    /// Those of [`ConcurrentTable::routes`].
    pub fn routes(&self) -> Result<Vec<Route>> {
        let mut routes = self.table.routes()?;
        routes.retain(|route| self.source.feeds().contains(&route.feed));
        Ok(routes)
    }
}
