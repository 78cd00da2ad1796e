//! Views of forwarding tables.
use crate::{raw, Error, Hop, Result};
use std::net::Ipv4Addr;

/// The number in a view for an address that no prefix covers.
pub const NUMBER_NO_ROUTE: u32 = 0;
/// The number in a view for packets that are discarded.
pub const NUMBER_DISCARD: u32 = 1;
/// The lowest number of a router in a view.
pub const FIRST_ROUTER: u32 = 2;

/// The next hops of a table as numbers, as they were when the view was created: changes, a fork and the end of the table don't change
/// it. It owns its memory, 64 MiB or more. Its look-ups are the fastest, and any number of threads may make them.
///
/// ```
/// use yarib::{Hop, Table, NUMBER_NO_ROUTE};
///
/// let mut table = Table::new(1_000)?;
/// let hop = Hop::Via([192, 0, 2, 1].into());
/// table.add(1, "10.0.0.0/8".parse()?, 10, hop)?;
/// table.fib_attach()?;
/// let view = table.view_new()?;
/// assert_eq!(view.hop(view.look_up([10, 1, 2, 3].into())), Some(hop));
/// assert_eq!(view.look_up([11, 1, 2, 3].into()), NUMBER_NO_ROUTE);
/// # Ok::<(), yarib::Error>(())
/// ```
#[derive(Debug)]
pub struct View(raw::View);

impl View {
    pub(crate) fn of(table: &impl raw::Read) -> Result<View> {
        let mut view = raw::View::new();
        loop {
            match table.write_view(&mut view) {
                // Another thread may change a concurrent table between two calls.
                Err(raw::BAD_SIZE) => {}
                other => return other.map(|()| View(view)).map_err(Error::of),
            }
        }
    }

    /// Returns the number of the address's next hop: [`NUMBER_NO_ROUTE`], [`NUMBER_DISCARD`] or that of a router.
    #[must_use]
    pub fn look_up(&self, address: Ipv4Addr) -> u32 {
        self.0.look_up(u32::from(address))
    }

    /// Writes the number of each address's next hop.
    ///
    /// # Errors
    /// [`Error::Size`] if the lists differ in length.
    pub fn look_up_each(&self, addresses: &[u32], numbers: &mut [u32]) -> Result<()> {
        self.0.look_up_each(addresses, numbers).map_err(Error::of)
    }

    /// Returns the next hop that has a number. [`NUMBER_NO_ROUTE`] and numbers of other views have none.
    #[must_use]
    pub fn hop(&self, number: u32) -> Option<Hop> {
        match number {
            NUMBER_NO_ROUTE => None,
            NUMBER_DISCARD => Some(Hop::Discard),
            router => self
                .0
                .routers
                .get(router as usize)
                .map(|address| Hop::Via(Ipv4Addr::from(*address))),
        }
    }

    /// Returns its size in bytes.
    #[must_use]
    pub fn memory(&self) -> usize {
        4 * (self.0.entries.len() + self.0.blocks.len() + self.0.routers.len())
    }
}
