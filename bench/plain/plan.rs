//! A plain Rust program of the same rules, without contracts: it plans a recovery from an inventory, over and over. Of
//! standard input the last byte says how often, the first 232 bytes are a head, and what is between them is a segment,
//! which is taken for each of the 24 others that the head lists. Each has two replicas.

use std::collections::BTreeMap;
use std::io::Read;

const HEAD_LEN: usize = 232;
const SEGMENTS: u64 = 24;

fn u64_at(b: &[u8], at: usize) -> u64 {
    u64::from_be_bytes(b[at..at + 8].try_into().unwrap())
}

fn u32_at(b: &[u8], at: usize) -> usize {
    u32::from_be_bytes(b[at..at + 4].try_into().unwrap()) as usize
}

fn u16_at(b: &[u8], at: usize) -> usize {
    u16::from_be_bytes(b[at..at + 2].try_into().unwrap()) as usize
}

struct Holding {
    backup: u64,
    master: u64,
    segment: u64,
    bytes: Vec<u8>,
    is_open: bool,
}

enum Entry {
    Header { master: u64, segment: u64, is_head: bool },
    Digest { count: usize },
    Safe,
    Data,
}

/// The entry at the front, if it passes all tests, and how many bytes it takes.
fn read(b: &[u8]) -> Option<(Entry, usize)> {
    let (entry, len) = match *b.first()? {
        1 if b.len() >= 18 && b[17] <= 1 => {
            (Entry::Header { master: u64_at(b, 1), segment: u64_at(b, 9), is_head: b[17] == 0 }, 18)
        }
        2 if b.len() >= 5 => {
            let count = u32_at(b, 1);
            let len = 5 + 8 * count;
            let rises = || (1..count).all(|i| u64_at(b, 5 + 8 * (i - 1)) < u64_at(b, 5 + 8 * i));
            (b.len() >= len && rises()).then_some((Entry::Digest { count }, len))?
        }
        3 if b.len() >= 9 && (1..=(1 << 62) + 1).contains(&u64_at(b, 1)) => (Entry::Safe, 9),
        4 if b.len() >= 23 && (1..=1 << 62).contains(&u64_at(b, 9)) => {
            let (key, value) = (u16_at(b, 17), u32_at(b, 19));
            ((1..=1024).contains(&key) && value <= 2097152).then_some((Entry::Data, 23 + key + value))?
        }
        5 if b.len() >= 27 && (1..=1 << 62).contains(&u64_at(b, 9)) => {
            let key = u16_at(b, 25);
            (1..=1024).contains(&key).then_some((Entry::Data, 27 + key))?
        }
        _ => return None,
    };
    (b.len() >= len).then_some((entry, len))
}

/// Whether a replica has a digest; None if it isn't a segment of its number.
fn bears_digest(holding: &Holding) -> Option<bool> {
    let b = &holding.bytes[..];
    let (Entry::Header { master, segment, is_head }, mut at) = read(b)? else { return None };
    if master != holding.master || segment != holding.segment {
        return None;
    }
    if is_head {
        let (Entry::Digest { count }, len) = read(&b[at..])? else { return None };
        if count == 0 || u64_at(b, at + 5 + 8 * (count - 1)) != segment {
            return None;
        }
        at += len;
        let (Entry::Safe, len) = read(&b[at..])? else { return None };
        at += len;
    }
    while at < b.len() {
        let (Entry::Data, len) = read(&b[at..])? else { return None };
        at += len;
    }
    Some(is_head)
}

fn is_longer(a: &Holding, b: &Holding) -> bool {
    a.bytes.len() > b.bytes.len() || a.bytes.len() == b.bytes.len() && a.backup < b.backup
}

fn is_preferred(a: &Holding, b: &Holding) -> bool {
    if a.is_open { b.is_open && is_longer(a, b) } else { b.is_open || a.backup < b.backup }
}

/// Copies of the segments of the newest log.
fn plan(inventory: &[Holding], master: u64) -> Option<Vec<Vec<u8>>> {
    let of_master = || inventory.iter().filter(|holding| holding.master == master);
    let mut newest = None;
    for holding in of_master() {
        if bears_digest(holding)? {
            newest = newest.max(Some(holding.segment));
        }
    }
    let is_open_head = |holding: &&Holding| Some(holding.segment) == newest && holding.is_open;
    let head = of_master().filter(is_open_head).reduce(|a, b| if is_longer(b, a) { b } else { a })?;
    let mut best: BTreeMap<u64, &Holding> = BTreeMap::new();
    for holding in of_master() {
        let known = best.entry(holding.segment).or_insert(holding);
        if is_preferred(holding, known) {
            *known = holding;
        }
    }
    let count = u32_at(&head.bytes, 19);
    let mut segments = Vec::new();
    for place in 0..count - 1 {
        segments.push(best.get(&u64_at(&head.bytes, 23 + 8 * place))?.bytes.clone());
    }
    segments.push(head.bytes.clone());
    Some(segments)
}

fn main() {
    let mut all = Vec::new();
    std::io::stdin().read_to_end(&mut all).unwrap();
    let rounds = all.pop().unwrap();
    let (head, segment) = all.split_at(HEAD_LEN);
    let mut inventory = Vec::new();
    for id in 1..=SEGMENTS + 1 {
        for backup in 0..2 {
            let is_open = id > SEGMENTS;
            let mut bytes = if is_open { head.to_vec() } else { segment.to_vec() };
            bytes[16] = id as u8;
            inventory.push(Holding { backup, master: 1, segment: id, bytes, is_open });
        }
    }
    let planned = (0..rounds).filter(|_| plan(&inventory, 1).is_some()).count();
    println!("{planned}");
}
