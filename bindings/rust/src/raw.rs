//! What the header of the C library declares, and one safe call over each of its calls. No other module is unsafe.
//!
//! Only this module makes a `Handle`, from the null pointer, and it is never copied. A call that changes it takes `&mut`, so no other call runs;
//! one that reads it takes `&`, and any number of these run at the same time. A `Concurrent` is made in the same way, but only its
//! free takes `&mut`: the library keeps its other calls apart. References and slices are never null.
#![allow(unsafe_code)]

use std::ffi::{c_char, c_void, CStr};
use std::fmt::Debug;
use std::ptr::null_mut;
use std::slice;
use std::sync::atomic::AtomicPtr;

pub const DONE: u32 = 0;
pub const NO_MEMORY: u32 = 4;
pub const BAD_SIZE: u32 = 5;
pub const NONE_LEFT: u32 = 6;
pub const BAD_TEXT: u32 = 7;
pub const BAD_LENGTH: u32 = 8;
pub const BAD_BITS: u32 = 9;
pub const BAD_FILE: u32 = 12;
pub const NOT_ADDED: u32 = 13;
/// The code of a reply.
pub const FULL: u32 = 3;

#[repr(C)]
#[derive(Clone, Copy, Debug, Default, PartialEq, Eq)]
pub struct Route {
    pub base: u32,
    pub pref: u32,
    pub via: u32,
    pub feed: u32,
    pub len: u8,
    pub hop: u8,
}

#[repr(C)]
#[derive(Clone, Copy, Debug, Default, PartialEq, Eq)]
pub struct Command {
    pub operation: u32,
    pub feed: u32,
    pub base: u32,
    pub pref: u32,
    pub via: u32,
    pub len: u8,
    pub hop: u8,
}

#[repr(C)]
#[derive(Clone, Copy, Debug, Default, PartialEq, Eq)]
pub struct Reply {
    pub code: u32,
    pub count: u32,
    pub route: Route,
}

#[repr(C)]
#[derive(Clone, Copy, Debug, Default, PartialEq, Eq)]
pub struct Entry {
    pub command: Command,
    pub reply: Reply,
}

#[repr(C)]
#[derive(Clone, Copy, Debug, Default, PartialEq, Eq)]
pub struct Selection {
    pub part: u32,
    pub feed: u32,
    pub base: u32,
    pub len: u8,
    pub only_best: u8,
}

#[repr(C)]
#[derive(Clone, Copy, Debug, Default, PartialEq, Eq)]
pub struct Prefix {
    pub base: u32,
    pub len: u8,
}

#[repr(C)]
#[derive(Clone, Copy, Debug, Default, PartialEq, Eq)]
pub struct Difference {
    pub first: u32,
    pub last: u32,
    pub before: Route,
    pub after: Route,
}

#[repr(C)]
#[derive(Clone, Copy, Debug, Default, PartialEq, Eq)]
pub struct HopCount {
    pub hop: u32,
    pub via: u32,
    pub routes: u32,
}

#[repr(C)]
#[derive(Clone, Copy, Debug, Default, PartialEq, Eq)]
pub struct Change {
    pub before: Route,
    pub after: Route,
    pub base: u32,
    pub len: u8,
}

/// What a load did.
#[repr(C)]
#[derive(Clone, Copy, Debug, Default, PartialEq, Eq)]
pub struct Loaded {
    pub routes: usize,
    pub line: usize,
    pub code: u32,
}

/// The number of entries of a view.
const VIEW_ENTRIES: usize = 1 << 24;

/// The arrays of a view for one call.
#[repr(C)]
struct Arrays {
    entries: *mut u32,
    entry_count: usize,
    blocks: *mut u32,
    block_count: usize,
    routers: *mut u32,
    router_count: usize,
}

/// A stream of the C library.
#[repr(C)]
struct File {
    inside: [u8; 0],
}

/// What C calls a handle: it owns what it holds, and is the one pointer to it. It is atomic, since calls that read it see
/// whether a change is under way.
#[repr(C)]
#[derive(Debug)]
pub struct Handle {
    inside: AtomicPtr<c_void>,
}

/// The handle of a concurrent table.
#[repr(C)]
#[derive(Debug)]
pub struct Concurrent {
    inside: AtomicPtr<c_void>,
}

extern "C" {
    fn yarib_version() -> *const c_char;
    fn yarib_build() -> *const c_char;
    fn yarib_new(table: *mut Handle, limit: u32, kind: u32) -> u32;
    fn yarib_free(table: *mut Handle) -> u32;
    fn yarib_apply(table: *mut Handle, command: *const Command, reply: *mut Reply) -> u32;
    fn yarib_apply_changed(
        table: *mut Handle,
        command: *const Command,
        reply: *mut Reply,
        change: *mut Change,
    ) -> u32;
    fn yarib_purge_changes(
        table: *const Handle,
        feed: u32,
        skip: usize,
        changes: *mut Change,
        room: usize,
        total: *mut usize,
    ) -> u32;
    fn yarib_apply_each(
        table: *mut Handle,
        commands: *const Command,
        size: usize,
        replies: *mut Reply,
        room: usize,
    ) -> u32;
    fn yarib_reserve(table: *mut Handle, entries: usize) -> u32;
    fn yarib_look_up(
        table: *const Handle,
        addresses: *const u32,
        size: usize,
        answers: *mut Route,
        room: usize,
    ) -> u32;
    fn yarib_look_up_one(table: *const Handle, address: u32, answer: *mut Route) -> u32;
    fn yarib_look_up_all(
        table: *const Handle,
        address: u32,
        skip: usize,
        routes: *mut Route,
        room: usize,
        total: *mut usize,
    ) -> u32;
    fn yarib_routes(
        table: *const Handle,
        skip: usize,
        routes: *mut Route,
        room: usize,
        total: *mut usize,
    ) -> u32;
    fn yarib_routes_from(
        table: *const Handle,
        from: *const Route,
        routes: *mut Route,
        room: usize,
        used: *mut usize,
    ) -> u32;
    fn yarib_select_by_hop(
        table: *const Handle,
        asked: *const Selection,
        hop: u32,
        via: u32,
        skip: usize,
        routes: *mut Route,
        room: usize,
        total: *mut usize,
    ) -> u32;
    fn yarib_hop_counts(
        table: *const Handle,
        skip: usize,
        counts: *mut HopCount,
        room: usize,
        total: *mut usize,
    ) -> u32;
    fn yarib_count(table: *const Handle, total: *mut usize) -> u32;
    fn yarib_journal(
        table: *const Handle,
        skip: usize,
        entries: *mut Entry,
        room: usize,
        total: *mut usize,
    ) -> u32;
    fn yarib_first_difference(
        old: *const Handle,
        new: *const Handle,
        by: u32,
        from: u32,
        difference: *mut Difference,
    ) -> u32;
    fn yarib_fib_new(table: *const Handle, forwarding: *mut Handle) -> u32;
    fn yarib_fib_clone(forwarding: *const Handle, other: *mut Handle) -> u32;
    fn yarib_fib_attach(table: *mut Handle) -> u32;
    fn yarib_fib_is_attached(table: *const Handle, attached: *mut u32) -> u32;
    fn yarib_memory(table: *const Handle, bytes: *mut usize) -> u32;
    fn yarib_concurrent_new(table: *const Concurrent, limit: u32) -> u32;
    fn yarib_concurrent_free(table: *mut Concurrent) -> u32;
    fn yarib_concurrent_apply(
        table: *const Concurrent,
        command: *const Command,
        reply: *mut Reply,
    ) -> u32;
    fn yarib_concurrent_apply_changed(
        table: *const Concurrent,
        command: *const Command,
        reply: *mut Reply,
        change: *mut Change,
    ) -> u32;
    fn yarib_concurrent_purge_changes(
        table: *const Concurrent,
        feed: u32,
        skip: usize,
        changes: *mut Change,
        room: usize,
        total: *mut usize,
    ) -> u32;
    fn yarib_concurrent_apply_each(
        table: *const Concurrent,
        commands: *const Command,
        size: usize,
        replies: *mut Reply,
        room: usize,
    ) -> u32;
    fn yarib_concurrent_fib_attach(table: *const Concurrent) -> u32;
    fn yarib_concurrent_fib_is_attached(table: *const Concurrent, attached: *mut u32) -> u32;
    fn yarib_concurrent_look_up(
        table: *const Concurrent,
        addresses: *const u32,
        size: usize,
        answers: *mut Route,
        room: usize,
    ) -> u32;
    fn yarib_concurrent_look_up_one(
        table: *const Concurrent,
        address: u32,
        answer: *mut Route,
    ) -> u32;
    fn yarib_concurrent_look_up_all(
        table: *const Concurrent,
        address: u32,
        skip: usize,
        routes: *mut Route,
        room: usize,
        total: *mut usize,
    ) -> u32;
    fn yarib_concurrent_routes(
        table: *const Concurrent,
        skip: usize,
        routes: *mut Route,
        room: usize,
        total: *mut usize,
    ) -> u32;
    fn yarib_concurrent_routes_from(
        table: *const Concurrent,
        from: *const Route,
        routes: *mut Route,
        room: usize,
        used: *mut usize,
    ) -> u32;
    fn yarib_concurrent_select_by_hop(
        table: *const Concurrent,
        asked: *const Selection,
        hop: u32,
        via: u32,
        skip: usize,
        routes: *mut Route,
        room: usize,
        total: *mut usize,
    ) -> u32;
    fn yarib_concurrent_hop_counts(
        table: *const Concurrent,
        skip: usize,
        counts: *mut HopCount,
        room: usize,
        total: *mut usize,
    ) -> u32;
    fn yarib_concurrent_count(table: *const Concurrent, total: *mut usize) -> u32;
    fn yarib_concurrent_memory(table: *const Concurrent, bytes: *mut usize) -> u32;
    fn yarib_prefix_parse(text: *const u8, size: usize, prefix: *mut Prefix) -> u32;
    fn yarib_view_look_up(view: *const Arrays, address: u32) -> u32;
    fn yarib_view_look_up_each(
        view: *const Arrays,
        addresses: *const u32,
        size: usize,
        numbers: *mut u32,
        room: usize,
    ) -> u32;
    fn yarib_concurrent_copy(table: *const Concurrent, limit: u32, copy: *mut Handle) -> u32;
    fn yarib_concurrent_replace(table: *const Concurrent, limit: u32, other: *const Handle) -> u32;
    fn yarib_concurrent_first_difference(
        old: *const Concurrent,
        new: *const Concurrent,
        by: u32,
        from: u32,
        difference: *mut Difference,
    ) -> u32;
    fn yarib_load(table: *mut Handle, feed: u32, file: *mut File, loaded: *mut Loaded) -> u32;
    fn yarib_concurrent_load(
        table: *const Concurrent,
        feed: u32,
        file: *mut File,
        loaded: *mut Loaded,
    ) -> u32;
    fn open_memstream(text: *mut *mut u8, size: *mut usize) -> *mut File;
    fn fmemopen(text: *const u8, size: usize, mode: *const u8) -> *mut File;
    fn fclose(file: *mut File) -> i32;
    fn free(block: *mut c_void);
}

/// Declares the calls that read a handle and came later: routers as numbers, views and files.
macro_rules! declare_for {
    ($handle:ty: $hops:ident, $view_sizes:ident, $view_write:ident, $save:ident) => {
        extern "C" {
            fn $hops(
                table: *const $handle,
                addresses: *const u32,
                size: usize,
                no_route: u32,
                discard: u32,
                hops: *mut u32,
                room: usize,
            ) -> u32;
            fn $view_sizes(table: *const $handle, blocks: *mut usize, routers: *mut usize) -> u32;
            fn $view_write(table: *const $handle, view: *mut Arrays) -> u32;
            fn $save(table: *const $handle, feed: u32, file: *mut File) -> u32;
        }
    };
}

declare_for!(Handle: yarib_hops, yarib_view_sizes, yarib_view_write, yarib_save);
declare_for!(Concurrent: yarib_concurrent_hops, yarib_concurrent_view_sizes, yarib_concurrent_view_write, yarib_concurrent_save);

/// Returns a text of the library's own, which it never frees.
fn own_text(call: unsafe extern "C" fn() -> *const c_char) -> &'static str {
    // SAFETY: both calls return a string that stays.
    unsafe { CStr::from_ptr(call()) }
        .to_str()
        .unwrap_or_default()
}

pub fn version() -> &'static str {
    own_text(yarib_version)
}

pub fn build() -> &'static str {
    own_text(yarib_build)
}

// A handle is `Send` and `Sync` by its one field. What it holds may go to another thread, and several threads may read it: the
// library proves both of its types, and what several handles hold together is only read, but for their count, which is atomic.

impl Drop for Handle {
    fn drop(&mut self) {
        // SAFETY: as for every call below. No other call is on the handle, so it isn't busy.
        unsafe { yarib_free(self) };
    }
}

/// A call's status as a result.
fn told(status: u32) -> Result<(), u32> {
    match status {
        DONE => Ok(()),
        status => Err(status),
    }
}

// SAFETY, of each call: `self` is a handle that `empty` made, a call that changes it has it by `&mut`, and references and slices
// are valid.
impl Handle {
    pub fn empty() -> Handle {
        Handle {
            inside: AtomicPtr::new(null_mut()),
        }
    }

    pub fn new(limit: u32, kind: u32) -> Result<Handle, u32> {
        let mut handle = Handle::empty();
        told(unsafe { yarib_new(&mut handle, limit, kind) })?;
        Ok(handle)
    }

    pub fn apply(&mut self, command: &Command) -> Result<Reply, u32> {
        let mut reply = Reply::default();
        told(unsafe { yarib_apply(self, command, &mut reply) })?;
        Ok(reply)
    }

    pub fn apply_changed(&mut self, command: &Command) -> Result<(Reply, Change), u32> {
        let (mut reply, mut change) = (Reply::default(), Change::default());
        told(unsafe { yarib_apply_changed(self, command, &mut reply, &mut change) })?;
        Ok((reply, change))
    }

    pub fn purge_changes(&self, feed: u32, changes: &mut [Change]) -> Result<usize, u32> {
        let (mut total, room) = (0, changes.len());
        told(unsafe {
            yarib_purge_changes(self, feed, 0, changes.as_mut_ptr(), room, &mut total)
        })?;
        Ok(total)
    }

    pub fn apply_each(&mut self, commands: &[Command], replies: &mut [Reply]) -> Result<(), u32> {
        let (size, room) = (commands.len(), replies.len());
        told(unsafe { yarib_apply_each(self, commands.as_ptr(), size, replies.as_mut_ptr(), room) })
    }

    pub fn reserve(&mut self, entries: usize) -> Result<(), u32> {
        told(unsafe { yarib_reserve(self, entries) })
    }

    pub fn journal(&self, entries: &mut [Entry]) -> Result<usize, u32> {
        let (mut total, room) = (0, entries.len());
        told(unsafe { yarib_journal(self, 0, entries.as_mut_ptr(), room, &mut total) })?;
        Ok(total)
    }

    pub fn first_difference(&self, new: &Handle, by: u32, from: u32) -> Result<Difference, u32> {
        let mut difference = Difference::default();
        told(unsafe { yarib_first_difference(self, new, by, from, &mut difference) })?;
        Ok(difference)
    }

    pub fn fib_new(&self) -> Result<Handle, u32> {
        let mut fib = Handle::empty();
        told(unsafe { yarib_fib_new(self, &mut fib) })?;
        Ok(fib)
    }

    pub fn fib_clone(&self) -> Result<Handle, u32> {
        let mut other = Handle::empty();
        told(unsafe { yarib_fib_clone(self, &mut other) })?;
        Ok(other)
    }

    pub fn fib_attach(&mut self) -> Result<(), u32> {
        told(unsafe { yarib_fib_attach(self) })
    }

    pub fn load(&mut self, feed: u32, text: &[u8]) -> (u32, Loaded) {
        loaded(text, |stream, loaded| unsafe {
            yarib_load(self, feed, stream, loaded)
        })
    }
}

/// The calls that read a table.
pub trait Read: Debug + Sync {
    fn look_up(&self, addresses: &[u32], answers: &mut [Route]) -> Result<(), u32>;
    fn look_up_one(&self, address: u32) -> Result<Route, u32>;
    fn look_up_all(&self, address: u32, routes: &mut [Route]) -> Result<usize, u32>;
    fn routes(&self, routes: &mut [Route]) -> Result<usize, u32>;
    fn routes_from(&self, from: &Route, routes: &mut [Route]) -> Result<usize, u32>;
    fn select(&self, asked: &Selection, hop: (u8, u32), routes: &mut [Route])
        -> Result<usize, u32>;
    fn hop_counts(&self, counts: &mut [HopCount]) -> Result<usize, u32>;
    fn count(&self) -> Result<usize, u32>;
    fn memory(&self) -> Result<usize, u32>;
    fn fib_is_attached(&self) -> Result<bool, u32>;
    fn hops(&self, addresses: &[u32], others: (u32, u32), hops: &mut [u32]) -> Result<(), u32>;
    fn write_view(&self, view: &mut View) -> Result<(), u32>;
    fn save(&self, feed: u32) -> Result<Vec<u8>, u32>;
}

macro_rules! read_by {
    ($handle:ty: $is_attached:ident, $look_up:ident, $look_up_one:ident, $look_up_all:ident, $routes:ident, $routes_from:ident, $select:ident,
        $hop_counts:ident, $count:ident, $memory:ident, $hops:ident, $view_sizes:ident, $view_write:ident, $save:ident) => {
        impl Read for $handle {
            fn look_up(&self, addresses: &[u32], answers: &mut [Route]) -> Result<(), u32> {
                let (size, room) = (addresses.len(), answers.len());
                told(unsafe {
                    $look_up(self, addresses.as_ptr(), size, answers.as_mut_ptr(), room)
                })
            }

            fn look_up_one(&self, address: u32) -> Result<Route, u32> {
                let mut answer = Route::default();
                told(unsafe { $look_up_one(self, address, &mut answer) })?;
                Ok(answer)
            }

            fn look_up_all(&self, address: u32, routes: &mut [Route]) -> Result<usize, u32> {
                let (mut total, room) = (0, routes.len());
                told(unsafe {
                    $look_up_all(self, address, 0, routes.as_mut_ptr(), room, &mut total)
                })?;
                Ok(total)
            }

            fn routes(&self, routes: &mut [Route]) -> Result<usize, u32> {
                let (mut total, room) = (0, routes.len());
                told(unsafe { $routes(self, 0, routes.as_mut_ptr(), room, &mut total) })?;
                Ok(total)
            }

            fn routes_from(&self, from: &Route, routes: &mut [Route]) -> Result<usize, u32> {
                let (mut used, room) = (0, routes.len());
                told(unsafe { $routes_from(self, from, routes.as_mut_ptr(), room, &mut used) })?;
                Ok(used)
            }

            fn select(
                &self,
                asked: &Selection,
                hop: (u8, u32),
                routes: &mut [Route],
            ) -> Result<usize, u32> {
                let (mut total, room, (hop, via)) = (0, routes.len(), hop);
                let at = routes.as_mut_ptr();
                told(unsafe { $select(self, asked, hop.into(), via, 0, at, room, &mut total) })?;
                Ok(total)
            }

            fn hop_counts(&self, counts: &mut [HopCount]) -> Result<usize, u32> {
                let (mut total, room) = (0, counts.len());
                told(unsafe { $hop_counts(self, 0, counts.as_mut_ptr(), room, &mut total) })?;
                Ok(total)
            }

            fn count(&self) -> Result<usize, u32> {
                let mut total = 0;
                told(unsafe { $count(self, &mut total) })?;
                Ok(total)
            }

            fn memory(&self) -> Result<usize, u32> {
                let mut bytes = 0;
                told(unsafe { $memory(self, &mut bytes) })?;
                Ok(bytes)
            }

            fn fib_is_attached(&self) -> Result<bool, u32> {
                let mut attached = 0;
                told(unsafe { $is_attached(self, &mut attached) })?;
                Ok(attached == 1)
            }

            fn hops(
                &self,
                addresses: &[u32],
                (no_route, discard): (u32, u32),
                hops: &mut [u32],
            ) -> Result<(), u32> {
                let (at, size) = (addresses.as_ptr(), addresses.len());
                let (hops, room) = (hops.as_mut_ptr(), hops.len());
                told(unsafe { $hops(self, at, size, no_route, discard, hops, room) })
            }

            fn write_view(&self, view: &mut View) -> Result<(), u32> {
                let (mut blocks, mut routers) = (0, 0);
                told(unsafe { $view_sizes(self, &mut blocks, &mut routers) })?;
                view.blocks.resize(blocks, 0);
                view.routers.resize(routers, 0);
                let mut arrays = view.arrays_to_write();
                told(unsafe { $view_write(self, &mut arrays) })?;
                view.routers.truncate(arrays.router_count);
                Ok(())
            }

            fn save(&self, feed: u32) -> Result<Vec<u8>, u32> {
                saved(|stream| unsafe { $save(self, feed, stream) })
            }
        }
    };
}

read_by!(Handle: yarib_fib_is_attached, yarib_look_up, yarib_look_up_one, yarib_look_up_all, yarib_routes, yarib_routes_from,
    yarib_select_by_hop, yarib_hop_counts, yarib_count, yarib_memory, yarib_hops, yarib_view_sizes, yarib_view_write, yarib_save);
read_by!(Concurrent: yarib_concurrent_fib_is_attached, yarib_concurrent_look_up, yarib_concurrent_look_up_one,
    yarib_concurrent_look_up_all, yarib_concurrent_routes,
    yarib_concurrent_routes_from, yarib_concurrent_select_by_hop, yarib_concurrent_hop_counts, yarib_concurrent_count, yarib_concurrent_memory,
    yarib_concurrent_hops, yarib_concurrent_view_sizes, yarib_concurrent_view_write, yarib_concurrent_save);

/// The arrays of a view. Look-ups only read them.
#[derive(Debug)]
pub struct View {
    pub entries: Vec<u32>,
    pub blocks: Vec<u32>,
    pub routers: Vec<u32>,
}

// SAFETY, of each call: the arrays are valid, and a look-up reads nothing beyond them, whatever they hold.
impl View {
    pub fn new() -> View {
        View {
            entries: vec![0; VIEW_ENTRIES],
            blocks: Vec::new(),
            routers: Vec::new(),
        }
    }

    fn arrays_to_write(&mut self) -> Arrays {
        Arrays {
            entries: self.entries.as_mut_ptr(),
            entry_count: self.entries.len(),
            blocks: self.blocks.as_mut_ptr(),
            block_count: self.blocks.len(),
            routers: self.routers.as_mut_ptr(),
            router_count: self.routers.len(),
        }
    }

    /// The same arrays for a call that only reads them.
    fn arrays(&self) -> Arrays {
        Arrays {
            entries: self.entries.as_ptr().cast_mut(),
            entry_count: self.entries.len(),
            blocks: self.blocks.as_ptr().cast_mut(),
            block_count: self.blocks.len(),
            routers: self.routers.as_ptr().cast_mut(),
            router_count: self.routers.len(),
        }
    }

    pub fn look_up(&self, address: u32) -> u32 {
        unsafe { yarib_view_look_up(&self.arrays(), address) }
    }

    pub fn look_up_each(&self, addresses: &[u32], numbers: &mut [u32]) -> Result<(), u32> {
        let (at, size) = (addresses.as_ptr(), addresses.len());
        let (numbers, room) = (numbers.as_mut_ptr(), numbers.len());
        told(unsafe { yarib_view_look_up_each(&self.arrays(), at, size, numbers, room) })
    }
}

/// Returns what a call writes to a stream, which is in memory.
fn saved(call: impl FnOnce(*mut File) -> u32) -> Result<Vec<u8>, u32> {
    let (mut at, mut size) = (null_mut(), 0);
    // SAFETY: the C library writes both until the stream is closed.
    let stream = unsafe { open_memstream(&mut at, &mut size) };
    if stream.is_null() {
        return Err(NO_MEMORY);
    }
    let status = call(stream);
    // SAFETY: the stream is open, and nothing uses it later.
    let is_whole = unsafe { fclose(stream) } == 0 && !at.is_null() && status != BAD_FILE;
    // A stream in memory refuses only for want of it.
    let text = if is_whole {
        // SAFETY: the closed stream has left a block of this size.
        told(status).map(|()| unsafe { slice::from_raw_parts(at, size) }.to_vec())
    } else {
        Err(NO_MEMORY)
    };
    // SAFETY: the block is the caller's, and no reference to it is left.
    unsafe { free(at.cast()) };
    text
}

/// Has a call read this text from a stream, and returns its status and result.
fn loaded(text: &[u8], call: impl FnOnce(*mut File, &mut Loaded) -> u32) -> (u32, Loaded) {
    let mut loaded = Loaded::default();
    // SAFETY: the stream only reads the text, and is closed before the text ends.
    let stream = unsafe { fmemopen(text.as_ptr(), text.len(), b"r\0".as_ptr()) };
    if stream.is_null() {
        return (NO_MEMORY, loaded);
    }
    let status = call(stream, &mut loaded);
    // SAFETY: the stream is open, and nothing uses it later.
    unsafe { fclose(stream) };
    (status, loaded)
}

// SAFETY, of each call: as above, and a concurrent table may have any calls at once, but for its free.
impl Concurrent {
    pub fn new(limit: u32) -> Result<Concurrent, u32> {
        let table = Concurrent {
            inside: AtomicPtr::new(null_mut()),
        };
        told(unsafe { yarib_concurrent_new(&table, limit) })?;
        Ok(table)
    }

    pub fn apply(&self, command: &Command) -> Result<Reply, u32> {
        let mut reply = Reply::default();
        told(unsafe { yarib_concurrent_apply(self, command, &mut reply) })?;
        Ok(reply)
    }

    pub fn apply_changed(&self, command: &Command) -> Result<(Reply, Change), u32> {
        let (mut reply, mut change) = (Reply::default(), Change::default());
        told(unsafe { yarib_concurrent_apply_changed(self, command, &mut reply, &mut change) })?;
        Ok((reply, change))
    }

    pub fn purge_changes(&self, feed: u32, changes: &mut [Change]) -> Result<usize, u32> {
        let (at, room, mut total) = (changes.as_mut_ptr(), changes.len(), 0);
        told(unsafe { yarib_concurrent_purge_changes(self, feed, 0, at, room, &mut total) })?;
        Ok(total)
    }

    pub fn apply_each(&self, commands: &[Command], replies: &mut [Reply]) -> Result<(), u32> {
        let (at, size) = (commands.as_ptr(), commands.len());
        let (replies, room) = (replies.as_mut_ptr(), replies.len());
        told(unsafe { yarib_concurrent_apply_each(self, at, size, replies, room) })
    }

    pub fn fib_attach(&self) -> Result<(), u32> {
        told(unsafe { yarib_concurrent_fib_attach(self) })
    }

    pub fn copy(&self, limit: u32) -> Result<Handle, u32> {
        let mut copy = Handle::empty();
        told(unsafe { yarib_concurrent_copy(self, limit, &mut copy) })?;
        Ok(copy)
    }

    pub fn replace_all(&self, limit: u32, other: &Handle) -> Result<(), u32> {
        told(unsafe { yarib_concurrent_replace(self, limit, other) })
    }

    pub fn first_difference(
        &self,
        new: &Concurrent,
        by: u32,
        from: u32,
    ) -> Result<Difference, u32> {
        let mut difference = Difference::default();
        told(unsafe { yarib_concurrent_first_difference(self, new, by, from, &mut difference) })?;
        Ok(difference)
    }

    pub fn load(&self, feed: u32, text: &[u8]) -> (u32, Loaded) {
        loaded(text, |stream, loaded| unsafe {
            yarib_concurrent_load(self, feed, stream, loaded)
        })
    }
}

impl Drop for Concurrent {
    fn drop(&mut self) {
        // SAFETY: no other call is on the table.
        unsafe { yarib_concurrent_free(self) };
    }
}

/// Reads a prefix.
pub fn prefix_parse(text: &[u8]) -> Result<Prefix, u32> {
    let mut prefix = Prefix::default();
    told(unsafe { yarib_prefix_parse(text.as_ptr(), text.len(), &mut prefix) })?;
    Ok(prefix)
}
