//! A plain Rust program of the same rules, without contracts: it rebuilds a log, over and over. Standard input has the first
//! place of each of 16 partitions, of 8 bytes each; then 12 segments of one length; and two bytes: how many workers there are,
//! where 0 stands for none, and how often the log is rebuilt. It prints how many objects there were, and how many nanoseconds
//! the shortest round took. It trusts the segments, and ends at a key without a partition and at two values of one version.

use std::cmp::Ordering;
use std::io::Read;
use std::sync::mpsc::sync_channel;
use std::thread;
use std::time::Instant;

const PARTITIONS: usize = 16;
const SEGMENTS: usize = 12;
/// How many groups a worker may have waiting.
const PLACES: usize = 4;
/// Up to this many bytes lie in the value itself.
const INLINE_LEN: usize = 15;

fn u64_at(b: &[u8], at: usize) -> u64 {
    u64::from_be_bytes(b[at..at + 8].try_into().unwrap())
}

fn u32_at(b: &[u8], at: usize) -> usize {
    u32::from_be_bytes(b[at..at + 4].try_into().unwrap()) as usize
}

fn u16_at(b: &[u8], at: usize) -> usize {
    u16::from_be_bytes(b[at..at + 2].try_into().unwrap()) as usize
}

fn place(key: &[u8]) -> u64 {
    let mut first = [0; 8];
    let len = key.len().min(8);
    first[..len].copy_from_slice(&key[..len]);
    u64::from_be_bytes(first)
}

/// A key's value as of a version, or its end. Of one version the end is last.
#[derive(Clone, Copy, PartialEq, Eq, PartialOrd, Ord)]
struct Claim<'a> {
    key: Key<'a>,
    version: u64,
    dead: bool,
    value: &'a [u8],
}

#[derive(Clone, Copy, PartialEq, Eq)]
struct Key<'a> {
    table: u64,
    place: u64,
    bytes: &'a [u8],
}

impl Ord for Key<'_> {
    fn cmp(&self, other: &Self) -> Ordering {
        if self.table == other.table && self.place != other.place {
            return self.place.cmp(&other.place);
        }
        (self.table, self.bytes).cmp(&(other.table, other.bytes))
    }
}

impl PartialOrd for Key<'_> {
    fn partial_cmp(&self, other: &Self) -> Option<Ordering> {
        Some(self.cmp(other))
    }
}

impl Claim<'_> {
    /// Whether the two are objects of one key and version with different values.
    fn clashes(&self, other: &Claim) -> bool {
        let is_same = self.key == other.key && self.version == other.version;
        is_same && !self.dead && !other.dead && self.value != other.value
    }
}

/// What the entry at the front claims, if it is an object or a tombstone, and how many bytes it takes.
fn read(b: &[u8]) -> (Option<Claim<'_>>, usize) {
    let claim = |from: usize, to: usize, end: usize| {
        let key = Key { table: u64_at(b, 1), place: place(&b[from..to]), bytes: &b[from..to] };
        (Some(Claim { key, version: u64_at(b, 9), dead: b[0] == 5, value: &b[to..end] }), end)
    };
    match b[0] {
        1 => (None, 18),
        2 => (None, 5 + 8 * u32_at(b, 1)),
        3 => (None, 9),
        4 => claim(23, 23 + u16_at(b, 17), 23 + u16_at(b, 17) + u32_at(b, 19)),
        _ => claim(27, 27 + u16_at(b, 25), 27 + u16_at(b, 25)),
    }
}

/// The places of a table from the first to the last, which go to one partition.
struct Part {
    table: u64,
    first: u64,
    last: u64,
    partition: usize,
}

fn partition_of(will: &[Part], key: &Key) -> usize {
    let at = will.partition_point(|part| (part.table, part.last) < (key.table, key.place));
    let part = &will[at];
    assert!(part.table == key.table && part.first <= key.place);
    part.partition
}

/// A segment, and where the claims of one partition lie in it.
type Group<'a> = (&'a [u8], Vec<u32>);

/// The segment's groups, by partition.
fn divide<'a>(segment: &'a [u8], will: &[Part]) -> Vec<Group<'a>> {
    let mut groups = vec![(segment, Vec::new()); PARTITIONS];
    let mut at = 0;
    while at < segment.len() {
        let (claim, len) = read(&segment[at..]);
        if let Some(claim) = claim {
            groups[partition_of(will, &claim.key)].1.push(at as u32);
        }
        at += len;
    }
    groups
}

/// Bytes in a row: a few lie in the value itself.
#[allow(dead_code)]
enum Bytes {
    Few(u8, [u8; INLINE_LEN]),
    Many(Box<[u8]>),
}

impl Bytes {
    fn new(bytes: &[u8]) -> Bytes {
        if bytes.len() > INLINE_LEN {
            return Bytes::Many(bytes.into());
        }
        let mut inline = [0; INLINE_LEN];
        inline[..bytes.len()].copy_from_slice(bytes);
        Bytes::Few(bytes.len() as u8, inline)
    }
}

#[allow(dead_code)]
struct Object {
    table: u64,
    key: Bytes,
    version: u64,
    value: Bytes,
}

/// The objects that these groups come to: of each key the last claim, unless that is its end.
fn settle(groups: &[Group]) -> Vec<Object> {
    let mut claims = Vec::with_capacity(groups.iter().map(|(_, places)| places.len()).sum());
    for (segment, places) in groups {
        claims.extend(places.iter().filter_map(|at| read(&segment[*at as usize..]).0));
    }
    claims.sort_unstable();
    let is_left = |n: &usize| !claims[*n].dead && claims.get(n + 1).is_none_or(|next| next.key != claims[*n].key);
    let mut objects = Vec::with_capacity((0..claims.len()).filter(is_left).count());
    for n in 0..claims.len() {
        let claim = &claims[n];
        assert!(claims.get(n + 1).is_none_or(|next| !claim.clashes(next)));
        if is_left(&n) {
            let (key, value) = (Bytes::new(claim.key.bytes), Bytes::new(claim.value));
            objects.push(Object { table: claim.key.table, key, version: claim.version, value });
        }
    }
    objects
}

fn rebuild(log: &[&[u8]], will: &[Part]) -> Vec<Object> {
    let groups: Vec<Group> = log.iter().flat_map(|segment| divide(segment, will)).collect();
    settle(&groups)
}

/// The same by workers: the calling thread divides the log, and each worker settles its partitions.
fn rebuild_threads(log: &[&[u8]], will: &[Part], workers: usize) -> Vec<Object> {
    let mut lists: Vec<Vec<Object>> = (0..PARTITIONS).map(|_| Vec::new()).collect();
    thread::scope(|scope| {
        let mut ends = Vec::new();
        let mut handles = Vec::new();
        for worker in 0..workers {
            let (to, from) = sync_channel::<(usize, Group)>(PLACES);
            ends.push(to);
            handles.push(scope.spawn(move || {
                let mut shares: Vec<Vec<_>> = (worker..PARTITIONS).step_by(workers).map(|_| Vec::new()).collect();
                for (partition, group) in from {
                    shares[partition / workers].push(group);
                }
                shares.into_iter().map(|groups| settle(&groups)).collect::<Vec<_>>()
            }));
        }
        for segment in log {
            for (partition, group) in divide(segment, will).into_iter().enumerate() {
                ends[partition % workers].send((partition, group)).unwrap();
            }
        }
        drop(ends);
        for (worker, handle) in handles.into_iter().enumerate() {
            for (at, list) in handle.join().unwrap().into_iter().enumerate() {
                lists[worker + at * workers] = list;
            }
        }
    });
    let mut all = Vec::with_capacity(lists.iter().map(|list| list.len()).sum());
    for mut list in lists {
        all.append(&mut list);
    }
    all
}

fn main() {
    let mut all = Vec::new();
    std::io::stdin().read_to_end(&mut all).unwrap();
    let (rounds, workers) = (all.pop().unwrap(), all.pop().unwrap() as usize);
    let (firsts, text) = all.split_at(8 * PARTITIONS);
    let log: Vec<&[u8]> = text.chunks_exact(text.len() / SEGMENTS).collect();
    let first = |partition: usize| if partition == 0 { 0 } else { u64_at(firsts, 8 * partition) };
    let last = |partition: usize| if partition + 1 == PARTITIONS { u64::MAX } else { first(partition + 1) - 1 };
    let part = |partition| Part { table: 1, first: first(partition), last: last(partition), partition };
    let will: Vec<Part> = (0..PARTITIONS).map(part).collect();
    let (mut count, mut shortest) = (0, u128::MAX);
    for _ in 0..rounds {
        let begun = Instant::now();
        let objects = if workers == 0 { rebuild(&log, &will) } else { rebuild_threads(&log, &will, workers) };
        shortest = shortest.min(begun.elapsed().as_nanos());
        count = objects.len();
    }
    println!("{count} {shortest}");
}
