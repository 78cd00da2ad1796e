//! The forwarding table of bench/fib_peer.c in plain Rust, with std's lists, which test each access.
use std::{env, fs, mem};

const ENTRIES: usize = 1 << 24;
const LONG: u32 = 1 << 31;
const AT_ONCE: usize = 16;
const CHUNK: usize = 256;

#[derive(Clone, Copy)]
#[allow(dead_code)]
enum Hop {
    Discard,
    Via(u32),
}

#[derive(Clone, Copy)]
#[allow(dead_code)]
struct Route {
    base: u32,
    len: u8,
    feed: u32,
    preference: u32,
    hop: Hop,
}

struct Table {
    entries: Vec<u32>,
    blocks: Vec<[u32; 256]>,
    answers: Vec<Option<Route>>,
}

#[repr(C)]
struct Timespec {
    secs: i64,
    nanos: i64,
}

unsafe extern "C" {
    fn clock_gettime(clock: i32, time: *mut Timespec) -> i32;
}

/// The processor time of this process in nanoseconds.
fn nanoseconds() -> u64 {
    let mut time = Timespec { secs: 0, nanos: 0 };
    // SAFETY: the C library writes one such struct; 2 is the process's processor time.
    unsafe { clock_gettime(2, &mut time) };
    time.secs as u64 * 1_000_000_000 + time.nanos as u64
}

impl Table {
    /// Of two prefixes that are the same the first stays.
    fn new(pairs: &[u32]) -> Table {
        let mut order: Vec<usize> = (0..pairs.len() / 2).collect();
        order.sort_by_key(|&k| pairs[2 * k + 1]);
        let answers = vec![None; pairs.len() / 2 + 1];
        let mut table = Table { entries: vec![0; ENTRIES], blocks: Vec::new(), answers };
        for k in order {
            table.put_in(pairs[2 * k], pairs[2 * k + 1] as u8, k as u32 + 1);
        }
        table
    }

    /// Puts in a prefix when all that are shorter are there.
    fn put_in(&mut self, base: u32, len: u8, number: u32) {
        let first = (base >> 8) as usize;
        let places = if len > 24 {
            let low = (base & 255) as usize;
            let entry = self.entries[first];
            if entry < LONG {
                self.entries[first] = LONG + self.blocks.len() as u32;
                self.blocks.push([entry; 256]);
            }
            &mut self.blocks[(self.entries[first] - LONG) as usize][low..low + (1 << (32 - len))]
        } else {
            &mut self.entries[first..first + (1 << (24 - len))]
        };
        let before = self.answers[places[0] as usize];
        if before.is_some_and(|route| route.len == len) {
            return;
        }
        let (feed, preference) = (1, number - 1);
        self.answers[number as usize] = Some(Route { base, len, feed, preference, hop: Hop::Via(preference) });
        places.fill(number);
    }

    fn answer_by(&self, entry: u32, address: u32) -> Option<Route> {
        if entry < LONG {
            return self.answers[entry as usize];
        }
        self.answers[self.blocks[(entry - LONG) as usize][(address & 255) as usize] as usize]
    }

    fn look_up(&self, address: u32) -> Option<Route> {
        self.answer_by(self.entries[(address >> 8) as usize], address)
    }

    /// The answers to these addresses, with several reads in progress at once.
    #[inline(never)]
    fn look_up_each(&self, asked: &[u32], answers: &mut [Option<Route>]) {
        for (asked, answers) in asked.chunks(AT_ONCE).zip(answers.chunks_mut(AT_ONCE)) {
            let mut entries = [0; AT_ONCE];
            for (entry, address) in entries.iter_mut().zip(asked) {
                *entry = self.entries[(address >> 8) as usize];
            }
            for ((answer, entry), address) in answers.iter_mut().zip(entries).zip(asked) {
                *answer = self.answer_by(entry, *address);
            }
        }
    }
}

fn sum(answers: impl Iterator<Item = Option<Route>>) -> u64 {
    answers.flatten().map(|route| u64::from(route.base) + u64::from(route.len)).sum()
}

fn main() {
    let bytes = fs::read(env::args().nth(1).expect("a file is named")).expect("it can be read");
    let numbers: Vec<u32> = bytes.chunks_exact(4).map(|four| u32::from_ne_bytes(four.try_into().unwrap())).collect();
    let (pairs, asked) = numbers[2..].split_at(2 * numbers[0] as usize);
    let from = nanoseconds();
    let table = Table::new(pairs);
    println!("new {}", nanoseconds() - from);
    let from = nanoseconds();
    let found = sum(asked.iter().map(|address| table.look_up(*address)));
    println!("look_up {}", nanoseconds() - from);
    let from = nanoseconds();
    let (mut same, mut answers) = (0, [None; CHUNK]);
    for some in asked.chunks(CHUNK) {
        table.look_up_each(some, &mut answers[..some.len()]);
        same += sum(answers[..some.len()].iter().copied());
    }
    println!("look_up_each {}", nanoseconds() - from);
    assert_eq!(found, same);
    let answers = table.answers.capacity() * mem::size_of::<Option<Route>>();
    println!("memory {}\nfound {found}", table.entries.capacity() * 4 + table.blocks.capacity() * 1024 + answers);
}
