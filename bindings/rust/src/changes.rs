//! Which best routes commands change.

use crate::{raw, whole, Command, ConcurrentTable, Error, Prefix, Reply, Result, Route, Table};

/// A prefix whose best route has changed.
#[derive(Clone, Copy, Debug, PartialEq, Eq, Hash)]
pub struct Change {
    /// The prefix.
    pub prefix: Prefix,
    /// The best route to it before, or `None` if there was no route to it.
    pub before: Option<Route>,
    /// The best route to it afterwards, or `None` if there is no route to it any more.
    pub after: Option<Route>,
}

impl Change {
    fn of(raw: &raw::Change) -> Change {
        Change {
            prefix: Prefix::of(raw.base, raw.len),
            before: Route::of(&raw.before),
            after: Route::of(&raw.after),
        }
    }

    /// Returns the change, or `None` if it has no route.
    fn told(raw: &raw::Change) -> Option<Change> {
        let change = Change::of(raw);
        (change.before.is_some() || change.after.is_some()).then_some(change)
    }
}

impl Table {
    /// Executes an add, a replace or a withdraw of the feed. Returns its reply, and the change of the best route to its prefix, or
    /// `None` if that is the same. The best routes to all other prefixes are the same.
    ///
    /// # Errors
    /// [`Error::Command`] for any other command, and those of [`Table::apply`].
    pub fn apply_changed(
        &mut self,
        feed: u32,
        command: Command,
    ) -> Result<(Reply, Option<Change>)> {
        let asked = command.numbers(feed);
        let (reply, change) = self.0.apply_changed(&asked).map_err(Error::of)?;
        Ok((Reply::of(&reply)?, Change::told(&change)))
    }

    /// Returns which best routes a purge of the feed would change, sorted by base and length.
    ///
    /// # Errors
    /// [`Error::Number`] if the feed is out of range, [`Error::Busy`].
    pub fn purge_changes(&self, feed: u32) -> Result<Vec<Change>> {
        let found = whole(64, |part| self.0.purge_changes(feed, part))?;
        Ok(found.iter().map(Change::of).collect())
    }
}

impl ConcurrentTable {
    /// Executes an add, a replace or a withdraw of the feed, publishes the table, and returns what [`Table::apply_changed`] returns.
    ///
    /// # Errors
    /// [`Error::Command`] for any other command, and those of [`ConcurrentTable::apply`].
    pub fn apply_changed(&self, feed: u32, command: Command) -> Result<(Reply, Option<Change>)> {
        let asked = command.numbers(feed);
        let _turn = self.turn();
        let (reply, change) = self.0.apply_changed(&asked).map_err(Error::of)?;
        Ok((Reply::of(&reply)?, Change::told(&change)))
    }

    /// Returns which best routes a purge of the feed would change in the published table, sorted by base and length.
    ///
    /// # Errors
    /// [`Error::Number`] if the feed is out of range.
    pub fn purge_changes(&self, feed: u32) -> Result<Vec<Change>> {
        let found = whole(64, |part| self.0.purge_changes(feed, part))?;
        Ok(found.iter().map(Change::of).collect())
    }
}
