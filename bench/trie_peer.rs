// The trie in plain Rust, with boxes and only std, as the baseline for its times: one kind of node, links of an
// optional box.
use std::alloc::{GlobalAlloc, Layout, System};
use std::sync::atomic::{AtomicUsize, Ordering};
use std::time::Instant;

struct Counting;
static ASKED: AtomicUsize = AtomicUsize::new(0);

unsafe impl GlobalAlloc for Counting {
    unsafe fn alloc(&self, layout: Layout) -> *mut u8 {
        ASKED.fetch_add(layout.size(), Ordering::Relaxed);
        unsafe { System.alloc(layout) }
    }
    unsafe fn dealloc(&self, at: *mut u8, layout: Layout) {
        ASKED.fetch_sub(layout.size(), Ordering::Relaxed);
        unsafe { System.dealloc(at, layout) }
    }
}

#[global_allocator]
static COUNTING: Counting = Counting;

#[derive(Clone, Copy, PartialEq)]
struct Prefix {
    base: u32,
    len: u8,
}

impl Prefix {
    fn covers(&self, a: u32) -> bool {
        (a as u64) >> (32 - self.len) == (self.base as u64) >> (32 - self.len)
    }
    fn side(&self, a: u32) -> usize {
        (a << self.len >> 31) as usize
    }
}

struct Node {
    prefix: Prefix,
    value: Option<u64>,
    sides: [Option<Box<Node>>; 2],
}

struct Trie {
    root: Option<Box<Node>>,
    len: usize,
}

impl Trie {
    fn longest(&self, a: u32) -> Option<(Prefix, &u64)> {
        let mut best = None;
        let mut link = &self.root;
        while let Some(node) = link {
            if !node.prefix.covers(a) {
                break;
            }
            if let Some(value) = &node.value {
                best = Some((node.prefix, value));
            }
            if node.prefix.len == 32 {
                break;
            }
            link = &node.sides[node.prefix.side(a)];
        }
        best
    }

    fn insert(&mut self, p: Prefix, value: u64) -> Option<u64> {
        let mut link = &mut self.root;
        loop {
            match link {
                None => {
                    *link = Some(Box::new(Node { prefix: p, value: Some(value), sides: [None, None] }));
                    self.len += 1;
                    return None;
                }
                Some(node) => {
                    let q = node.prefix;
                    if q == p {
                        let had = node.value.replace(value);
                        if had.is_none() {
                            self.len += 1;
                        }
                        return had;
                    }
                    if q.len < p.len && q.covers(p.base) {
                        let side = q.side(p.base);
                        link = &mut link.as_mut().unwrap().sides[side];
                        continue;
                    }
                    let old = link.take();
                    if p.len < q.len && p.covers(q.base) {
                        let mut node = Box::new(Node { prefix: p, value: Some(value), sides: [None, None] });
                        node.sides[p.side(q.base)] = old;
                        *link = Some(node);
                    } else {
                        let len = (p.base ^ q.base).leading_zeros() as u8;
                        let base = ((p.base as u64) >> (32 - len) << (32 - len)) as u32;
                        let mut fork = Box::new(Node { prefix: Prefix { base, len }, value: None, sides: [None, None] });
                        fork.sides[fork.prefix.side(q.base)] = old;
                        let leaf = Box::new(Node { prefix: p, value: Some(value), sides: [None, None] });
                        fork.sides[fork.prefix.side(p.base)] = Some(leaf);
                        *link = Some(fork);
                    }
                    self.len += 1;
                    return None;
                }
            }
        }
    }

    fn remove(&mut self, p: Prefix) -> Option<u64> {
        let gone = Self::remove_at(&mut self.root, p);
        if gone.is_some() {
            self.len -= 1;
        }
        gone
    }

    fn retain(&mut self, keeps: &mut impl FnMut(Prefix, &mut u64) -> bool) {
        Self::retain_at(&mut self.root, &mut self.len, keeps);
    }

    fn retain_at(link: &mut Option<Box<Node>>, len: &mut usize, keeps: &mut impl FnMut(Prefix, &mut u64) -> bool) {
        let Some(node) = link else { return };
        if let Some(value) = &mut node.value {
            if !keeps(node.prefix, value) {
                node.value = None;
                *len -= 1;
            }
        }
        let [left, right] = &mut node.sides;
        Self::retain_at(left, len, keeps);
        Self::retain_at(right, len, keeps);
        if node.value.is_none() && (node.sides[0].is_none() || node.sides[1].is_none()) {
            let [left, right] = std::mem::take(&mut node.sides);
            *link = if left.is_none() { right } else { left };
        }
    }

    fn remove_at(link: &mut Option<Box<Node>>, p: Prefix) -> Option<u64> {
        let node = link.as_mut()?;
        let gone = if node.prefix == p {
            node.value.take()
        } else if node.prefix.len < p.len && node.prefix.covers(p.base) {
            let side = node.prefix.side(p.base);
            Self::remove_at(&mut node.sides[side], p)
        } else {
            return None;
        };
        if node.value.is_none() && (node.sides[0].is_none() || node.sides[1].is_none()) {
            let [left, right] = std::mem::take(&mut node.sides);
            *link = if left.is_none() { right } else { left };
        }
        gone
    }
}

struct Draws {
    seed: u64,
}

impl Draws {
    fn next(&mut self) -> u32 {
        self.seed = self.seed.wrapping_mul(6_364_136_223_846_793_005).wrapping_add(1_442_695_040_888_963_407);
        (self.seed >> 32) as u32
    }
    fn prefix(&mut self) -> Prefix {
        let len = match self.next() % 1000 {
            0..600 => 24,
            600..720 => 22,
            720..820 => 23,
            820..870 => 21,
            870..915 => 20,
            915..945 => 19,
            945..970 => 16,
            970..980 => 18,
            980..985 => 17,
            985..995 => 28,
            _ => 12,
        };
        let past = 32 - len;
        Prefix { base: ((self.next() as u64) >> past << past) as u32, len }
    }
}

#[repr(C)]
struct Timespec {
    secs: i64,
    nanos: i64,
}

unsafe extern "C" {
    fn clock_gettime(clock: i32, time: *mut Timespec) -> i32;
}

/// The processor time of this process, user and system, in nanoseconds.
fn cpu() -> u128 {
    const PROCESS: i32 = 2;
    let mut time = Timespec { secs: 0, nanos: 0 };
    unsafe { clock_gettime(PROCESS, &mut time) };
    time.secs as u128 * 1_000_000_000 + time.nanos as u128
}

struct Stopwatch {
    start: Instant,
    used: u128,
}

impl Stopwatch {
    fn start() -> Stopwatch {
        Stopwatch { used: cpu(), start: Instant::now() }
    }
    /// Nanoseconds of wall-clock and processor time for each call.
    fn per_call(&self, calls: u32) -> (u128, u128) {
        let clock = self.start.elapsed().as_nanos();
        (clock / calls as u128, (cpu() - self.used) / calls as u128)
    }
}

fn main() {
    let n: u32 = std::env::args().nth(1).and_then(|x| x.parse().ok()).unwrap_or(2_000);
    let mut trie = Trie { root: None, len: 0 };
    let mut draws = Draws { seed: 1 };
    let watch = Stopwatch::start();
    for k in 0..n {
        trie.insert(draws.prefix(), k as u64);
    }
    let insert = watch.per_call(n);
    let (len, asked) = (trie.len, ASKED.load(Ordering::Relaxed));
    let mut draws = Draws { seed: 2 };
    let mut found = 0u64;
    let watch = Stopwatch::start();
    for _ in 0..n {
        if let Some((_, value)) = trie.longest(draws.next()) {
            found = found.wrapping_add(*value);
        }
    }
    let longest = watch.per_call(n);
    let watch = Stopwatch::start();
    trie.retain(&mut |_, value| !value.is_multiple_of(1_000));
    let retain = watch.per_call(n);
    let kept = trie.len;
    let mut draws = Draws { seed: 1 };
    let watch = Stopwatch::start();
    for _ in 0..n {
        trie.remove(draws.prefix());
    }
    let remove = watch.per_call(n);
    eprintln!("insert {} longest {} retain {} remove {}", insert.0, longest.0, retain.0, remove.0);
    eprintln!("insert_cpu {} longest_cpu {} retain_cpu {} remove_cpu {}", insert.1, longest.1, retain.1, remove.1);
    eprintln!("prefixes {len} asked {asked} found {found} kept {kept} left {}", trie.len);
}
