//! A plain Rust program of the same rules, without contracts. It reads the lines `put`, `get`, `clean`, `stop`, `fault`, `lose`,
//! `crash` and `recover`, and answers them as `ramlog` does: with its tests, its refusals and its bad lines. It knows no other lines,
//! no format 2, no options but those of memory, and no wills but the one over all tablets. With a further word it cleans by itself, as
//! `ramlog --tend` does; but a pass that begins ends at once, and what is cleaned after each put isn't limited.

use std::cmp::Ordering;
use std::fmt;
use std::io::{self, BufRead, BufReader, BufWriter, Read, Write};
use std::ops::ControlFlow;
use std::process::ExitCode;

const BACKUPS: usize = 3;
const REPLICAS: usize = 2;
const STEP: u64 = 1;
const TABLES: u64 = 4;
const MAX_RECORDS: usize = 1 << 20;
const MAX_LINE: u64 = 4096;
const BUFFER: usize = 1 << 16;
const MAX_KEY: usize = 1024;
const MAX_VALUE: usize = 1 << 21;
const MAX_SEGMENT: usize = 1 << 23;
const MAX_VERSION: u64 = 1 << 62;
const MAX_VICTIMS: usize = 32;
const MAX_SURVIVORS: usize = 4;
const HEADER: usize = 18;
const DIGEST: usize = 5;
const SAFE: usize = 9;
const OBJECT: usize = 23;
const TOMBSTONE: usize = 27;

// ---- refusals

enum Refusal {
    TooBig,
    Full,
    VersionsSpent,
    HistoryFull,
    Halted,
    Rolling,
    Spent,
    SegmentsSpent,
    NoTablet,
    Down,
    Up,
    NoVictims,
    TooMany,
    TooMuch,
    Twice(u64),
    IsHead(u64),
    NotInLog(u64),
    NoHead,
    HeadClosed(u64),
    Missing(u64),
    BadReplica(usize, u64),
    Clash,
    Stray,
}

impl fmt::Display for Refusal {
    fn fmt(&self, f: &mut fmt::Formatter) -> fmt::Result {
        match self {
            Refusal::TooBig => write!(f, "TooBig"),
            Refusal::Full => write!(f, "Full"),
            Refusal::VersionsSpent => write!(f, "VersionsSpent"),
            Refusal::HistoryFull => write!(f, "HistoryFull"),
            Refusal::Halted => write!(f, "Halted"),
            Refusal::Rolling => write!(f, "Rolling"),
            Refusal::Spent => write!(f, "Spent"),
            Refusal::SegmentsSpent => write!(f, "SegmentsSpent"),
            Refusal::NoTablet => write!(f, "NoTablet"),
            Refusal::Down => write!(f, "Down"),
            Refusal::Up => write!(f, "Up"),
            Refusal::NoVictims => write!(f, "NoVictims"),
            Refusal::TooMany => write!(f, "TooMany"),
            Refusal::TooMuch => write!(f, "TooMuch"),
            Refusal::Twice(id) => write!(f, "Twice {id}"),
            Refusal::IsHead(id) => write!(f, "IsHead {id}"),
            Refusal::NotInLog(id) => write!(f, "NotInLog {id}"),
            Refusal::NoHead => write!(f, "NoHead"),
            Refusal::HeadClosed(id) => write!(f, "HeadClosed {id}"),
            Refusal::Missing(id) => write!(f, "Missing {id}"),
            Refusal::BadReplica(backup, id) => write!(f, "BadReplica {backup} {id}"),
            Refusal::Clash => write!(f, "Clash"),
            Refusal::Stray => write!(f, "Stray"),
        }
    }
}

// ---- keys and entries

/// A range of keys of one table.
struct Tablet {
    table: u64,
    first: u64,
    last: u64,
}

/// Each table is one tablet.
fn tablets() -> Vec<Tablet> {
    (1..=TABLES).map(|table| Tablet { table, first: 0, last: u64::MAX }).collect()
}

/// The first eight bytes of a key, as a number.
fn place_of(key: &[u8]) -> u64 {
    let mut place = [0; 8];
    let len = key.len().min(8);
    place[..len].copy_from_slice(&key[..len]);
    u64::from_be_bytes(place)
}

/// Whether a tablet has the key. They are in order.
fn have(tablets: &[Tablet], table: u64, key: &[u8]) -> bool {
    let place = place_of(key);
    let after = tablets.partition_point(|it| (it.table, it.first) <= (table, place));
    after > 0 && tablets[after - 1].table == table && place <= tablets[after - 1].last
}

fn fold(a: u64, b: u64) -> u64 {
    let wide = a as u128 * b as u128;
    wide as u64 ^ (wide >> 64) as u64
}

fn hash(table: u64, key: &[u8]) -> u64 {
    let mut h = fold(table ^ 0x9E37_79B9_7F4A_7C15, 0xD6E8_FEB8_6659_FD93);
    for part in key.chunks(8) {
        let mut word = [0; 8];
        word[..part.len()].copy_from_slice(part);
        h = fold(h ^ u64::from_le_bytes(word), 0xA076_1D64_78BD_642F);
    }
    h | 1
}

fn u64_at(b: &[u8], at: usize) -> u64 {
    u64::from_be_bytes(b[at..at + 8].try_into().unwrap())
}

fn u32_at(b: &[u8], at: usize) -> usize {
    u32::from_be_bytes(b[at..at + 4].try_into().unwrap()) as usize
}

fn u16_at(b: &[u8], at: usize) -> usize {
    u16::from_be_bytes(b[at..at + 2].try_into().unwrap()) as usize
}

/// An entry that lies in a segment.
enum Entry<'a> {
    Header { master: u64, segment: u64, is_head: bool },
    Digest(&'a [u8]),
    Safe(u64),
    Object { table: u64, key: &'a [u8], version: u64, value: &'a [u8] },
    Tombstone { table: u64, key: &'a [u8], version: u64, segment: u64 },
}

/// The entry at the front of the bytes, and its length; `None` if there is none.
fn read_entry(b: &[u8]) -> Option<(Entry<'_>, usize)> {
    match *b.first()? {
        1 if b.len() >= HEADER && b[17] <= 1 => {
            Some((Entry::Header { master: u64_at(b, 1), segment: u64_at(b, 9), is_head: b[17] == 0 }, HEADER))
        }
        2 if b.len() >= DIGEST => {
            let len = DIGEST + 8 * u32_at(b, 1);
            let ids = b.get(DIGEST..len)?;
            let rises = ids.chunks_exact(8).zip(ids.chunks_exact(8).skip(1)).all(|(a, b)| a < b);
            rises.then_some((Entry::Digest(ids), len))
        }
        3 if b.len() >= SAFE => {
            let safe = u64_at(b, 1);
            (1..=MAX_VERSION + 1).contains(&safe).then_some((Entry::Safe(safe), SAFE))
        }
        4 if b.len() >= OBJECT => {
            let (table, version, k, v) = (u64_at(b, 1), u64_at(b, 9), u16_at(b, 17), u32_at(b, 19));
            let len = OBJECT + k + v;
            let is_good = (1..=MAX_VERSION).contains(&version) && (1..=MAX_KEY).contains(&k) && v <= MAX_VALUE && b.len() >= len;
            is_good.then(|| (Entry::Object { table, key: &b[OBJECT..OBJECT + k], version, value: &b[OBJECT + k..len] }, len))
        }
        5 if b.len() >= TOMBSTONE => {
            let (table, version, segment, k) = (u64_at(b, 1), u64_at(b, 9), u64_at(b, 17), u16_at(b, 25));
            let len = TOMBSTONE + k;
            let is_good = (1..=MAX_VERSION).contains(&version) && (1..=MAX_KEY).contains(&k) && b.len() >= len;
            is_good.then(|| (Entry::Tombstone { table, key: &b[TOMBSTONE..len], version, segment }, len))
        }
        _ => None,
    }
}

/// Appends an object.
fn write_object(image: &mut Vec<u8>, table: u64, version: u64, key: &[u8], value: &[u8]) {
    image.push(4);
    image.extend_from_slice(&table.to_be_bytes());
    image.extend_from_slice(&version.to_be_bytes());
    image.extend_from_slice(&(key.len() as u16).to_be_bytes());
    image.extend_from_slice(&(value.len() as u32).to_be_bytes());
    image.extend_from_slice(key);
    image.extend_from_slice(value);
}

/// Appends a tombstone that names a segment.
fn write_tombstone(image: &mut Vec<u8>, table: u64, version: u64, segment: u64, key: &[u8]) {
    image.push(5);
    image.extend_from_slice(&table.to_be_bytes());
    image.extend_from_slice(&version.to_be_bytes());
    image.extend_from_slice(&segment.to_be_bytes());
    image.extend_from_slice(&(key.len() as u16).to_be_bytes());
    image.extend_from_slice(key);
}

fn header(master: u64, id: u64, role: u8, size: usize) -> Vec<u8> {
    let mut image = Vec::with_capacity(size);
    image.push(1);
    image.extend_from_slice(&master.to_be_bytes());
    image.extend_from_slice(&id.to_be_bytes());
    image.push(role);
    image
}

/// The opening of a segment that is read from a backup.
enum Opening<'a> {
    Head { ids: &'a [u8], safe: u64 },
    Survivor,
}

/// What a replica shows, if its bytes are those of this segment of this master: its opening, and where that ends.
fn read_opening(bytes: &[u8], master: u64, segment: u64) -> Option<(Opening<'_>, usize)> {
    let (Entry::Header { master: m, segment: s, is_head }, mut at) = read_entry(bytes)? else {
        return None;
    };
    if (m, s) != (master, segment) {
        return None;
    }
    if !is_head {
        return Some((Opening::Survivor, at));
    }
    let (Entry::Digest(ids), len) = read_entry(&bytes[at..])? else {
        return None;
    };
    at += len;
    let last = ids.chunks_exact(8).last()?;
    let (Entry::Safe(safe), len) = read_entry(&bytes[at..])? else {
        return None;
    };
    (u64_at(last, 0) == segment).then_some((Opening::Head { ids, safe }, at + len))
}

/// The same, if all behind the opening is objects and tombstones.
fn read_segment(bytes: &[u8], master: u64, segment: u64) -> Option<Opening<'_>> {
    if bytes.len() > MAX_SEGMENT {
        return None;
    }
    let (opening, mut at) = read_opening(bytes, master, segment)?;
    while at < bytes.len() {
        match read_entry(&bytes[at..])? {
            (Entry::Object { .. } | Entry::Tombstone { .. }, len) => at += len,
            _ => return None,
        }
    }
    Some(opening)
}

// ---- the index

/// A place of the index: no key has hash 0.
#[derive(Clone, Copy, Default)]
struct Slot {
    hash: u64,
    segment: u32,
    at: u32,
}

/// Open addressing, half full at most.
struct Index {
    slots: Vec<Slot>,
    len: usize,
}

impl Index {
    fn new() -> Index {
        Index { slots: vec![Slot::default(); 1024], len: 0 }
    }

    fn find(&self, hash: u64, mut is: impl FnMut(&Slot) -> bool) -> Option<usize> {
        let mask = self.slots.len() - 1;
        let mut at = (hash >> 20) as usize & mask;
        loop {
            let slot = &self.slots[at];
            if slot.hash == 0 {
                return None;
            }
            if slot.hash == hash && is(slot) {
                return Some(at);
            }
            at = (at + 1) & mask;
        }
    }

    fn insert(&mut self, slot: Slot) {
        if 2 * (self.len + 1) > self.slots.len() {
            let old = std::mem::take(&mut self.slots);
            self.slots = vec![Slot::default(); 2 * old.len()];
            for slot in old.into_iter().filter(|slot| slot.hash != 0) {
                self.place(slot);
            }
        }
        self.place(slot);
        self.len += 1;
    }

    fn place(&mut self, slot: Slot) {
        let mask = self.slots.len() - 1;
        let mut at = (slot.hash >> 20) as usize & mask;
        while self.slots[at].hash != 0 {
            at = (at + 1) & mask;
        }
        self.slots[at] = slot;
    }
}

// ---- backups

struct Replica {
    master: u64,
    segment: u64,
    bytes: Vec<u8>,
    is_open: bool,
}

impl Replica {
    fn place(&self) -> (u64, u64) {
        (self.master, self.segment)
    }
}

enum Act<'a> {
    Open(&'a [u8]),
    Extend { at: usize, bytes: &'a [u8] },
    Close,
    Seal(&'a [u8]),
    Free,
}

enum TakeFault {
    Wrong,
    Fault,
    Spent,
}

impl From<TakeFault> for Refusal {
    fn from(fault: TakeFault) -> Refusal {
        match fault {
            TakeFault::Wrong => unreachable!("what a backup holds is what its master keeps of it"),
            TakeFault::Fault => Refusal::Halted,
            TakeFault::Spent => Refusal::Spent,
        }
    }
}

/// Replicas by master, then by segment.
#[derive(Default)]
struct Backup {
    replicas: Vec<Replica>,
    last: usize,
}

impl Backup {
    /// Where the replica is, or would be. The one that was asked for last is looked at first.
    fn find(&mut self, place: (u64, u64)) -> Result<usize, usize> {
        if self.replicas.get(self.last).is_some_and(|it| it.place() == place) {
            return Ok(self.last);
        }
        let found = self.replicas.binary_search_by(|it| it.place().cmp(&place));
        self.last = found.unwrap_or_else(|at| at);
        found
    }

    fn take(&mut self, master: u64, segment: u64, act: Act) -> Result<(), TakeFault> {
        let found = self.find((master, segment));
        match (act, found) {
            (Act::Open(bytes), Err(at)) => {
                let replica = Replica { master, segment, bytes: bytes.to_vec(), is_open: true };
                self.replicas.insert(at, replica);
            }
            (Act::Seal(bytes), Err(at)) => {
                let replica = Replica { master, segment, bytes: bytes.to_vec(), is_open: false };
                self.replicas.insert(at, replica);
            }
            (Act::Extend { at, bytes }, Ok(found)) => {
                let replica = &mut self.replicas[found];
                if !replica.is_open || replica.bytes.len() != at {
                    return Err(TakeFault::Wrong);
                }
                replica.bytes.extend_from_slice(bytes);
            }
            (Act::Close, Ok(found)) if self.replicas[found].is_open => self.replicas[found].is_open = false,
            (Act::Free, Ok(found)) => drop(self.replicas.remove(found)),
            _ => return Err(TakeFault::Wrong),
        }
        Ok(())
    }
}

fn no_backups() -> Vec<Backup> {
    (0..BACKUPS).map(|_| Backup::default()).collect()
}

struct Fleet {
    backups: Vec<Backup>,
    takes: u64,
    end: u64,
    /// The take from now that ends in a fault, 0 for none, and whether its op is taken.
    asked: (u64, bool),
}

impl Fleet {
    fn new() -> Fleet {
        Fleet { backups: no_backups(), takes: 0, end: u64::MAX, asked: (0, false) }
    }

    /// Hands an op to a backup.
    fn take(&mut self, backup: usize, master: u64, segment: u64, act: Act) -> Result<(), TakeFault> {
        if self.takes == self.end {
            return Err(TakeFault::Spent);
        }
        if self.asked.0 > 0 {
            self.asked.0 -= 1;
            if self.asked.0 == 0 {
                if self.asked.1 {
                    self.backups[backup].take(master, segment, act)?;
                    self.takes += 1;
                }
                return Err(TakeFault::Fault);
            }
        }
        self.backups.get_mut(backup).ok_or(TakeFault::Wrong)?.take(master, segment, act)?;
        self.takes += 1;
        Ok(())
    }

    /// Frees the replicas of all masters but one.
    fn retire(&mut self, keep: u64) -> Result<(), TakeFault> {
        for backup in 0..BACKUPS {
            let others: Vec<_> = self.backups[backup].replicas.iter().map(Replica::place).filter(|it| it.0 != keep).collect();
            for (master, segment) in others {
                self.take(backup, master, segment, Act::Free)?;
            }
        }
        Ok(())
    }
}

// ---- the history

/// The commands that were accepted, with their replies, packed in blocks.
#[derive(Default)]
struct History {
    blocks: Vec<Vec<u8>>,
    len: usize,
}

impl History {
    const BLOCK: usize = 262_144;

    fn push(&mut self, kind: u8, table: u64, key: &[u8], version: u64, value: &[u8]) {
        let len = 31 + key.len() + value.len();
        if self.blocks.last().is_none_or(|block| block.len() + len > block.capacity()) {
            self.blocks.push(Vec::with_capacity(Self::BLOCK.max(len)));
        }
        let block = self.blocks.last_mut().unwrap();
        block.push(kind);
        block.extend_from_slice(&0u64.to_be_bytes());
        block.extend_from_slice(&table.to_be_bytes());
        block.extend_from_slice(&version.to_be_bytes());
        block.extend_from_slice(&(key.len() as u16).to_be_bytes());
        block.extend_from_slice(&(value.len() as u32).to_be_bytes());
        block.extend_from_slice(key);
        block.extend_from_slice(value);
        self.len += 1;
    }
}

// ---- masters

#[derive(Clone, Copy)]
struct Sizes {
    segment: usize,
    seglet: usize,
    seglets: usize,
}

impl Sizes {
    fn whole(&self) -> usize {
        self.segment / self.seglet
    }
}

struct Master {
    number: u64,
    sizes: Sizes,
    tablets: Vec<Tablet>,
    is_halted: bool,
    images: Vec<Option<Vec<u8>>>,
    /// How many ids the digest in force lists.
    listed: usize,
    /// The seglets of closed images.
    closed: usize,
    head: u64,
    next: u64,
    /// How many bytes of the head each replica has.
    taken: [usize; REPLICAS],
    /// The version of the next new key.
    safe: u64,
    index: Index,
    history: History,
    /// What is counted of each segment, by its id.
    rows: Vec<Row>,
    /// For each closed segment, once a cleaner looked at it: the bytes of its tombstones, by the segment that they name.
    named: Vec<Option<Vec<(u64, usize)>>>,
    /// The bytes of those tombstones that name a segment, by its id.
    naming: Vec<usize>,
}

/// What is counted of a segment.
#[derive(Clone, Copy, Default)]
struct Row {
    /// The bytes before its first object or tombstone.
    opening: usize,
    /// The bytes of its live objects.
    live: usize,
    /// The bytes of its tombstones that name a segment of the log.
    stones: usize,
}

impl Row {
    fn kept(&self) -> usize {
        self.live + self.stones
    }
}

/// Everything that an object needs to be put in order.
struct Claim<'a> {
    table: u64,
    key: &'a [u8],
    version: u64,
    is_dead: bool,
    value: &'a [u8],
}

impl Claim<'_> {
    fn rank(&self, other: &Claim) -> Ordering {
        (self.table, self.key, self.version, self.is_dead).cmp(&(other.table, other.key, other.version, other.is_dead))
    }
}

impl Master {
    /// A master with this number, whose versions begin with `safe`.
    fn new(number: u64, sizes: Sizes, safe: u64, fleet: &mut Fleet) -> Result<Master, Refusal> {
        let mut master = Master {
            number,
            sizes,
            tablets: tablets(),
            is_halted: false,
            images: vec![None],
            listed: 0,
            closed: 0,
            head: 0,
            next: 1,
            taken: [0; REPLICAS],
            safe,
            index: Index::new(),
            history: History::default(),
            rows: vec![Row::default()],
            named: vec![None],
            naming: vec![0],
        };
        let id = master.take_id()?;
        let image = master.opening(id, &[]);
        master.open(fleet, id, image)?;
        master.listed = 1;
        Ok(master)
    }

    fn take_id(&mut self) -> Result<u64, Refusal> {
        if self.next > 1 << 62 {
            return Err(Refusal::SegmentsSpent);
        }
        let id = self.next;
        self.next += 1;
        self.images.push(None);
        self.rows.push(Row::default());
        self.named.push(None);
        self.naming.push(0);
        Ok(id)
    }

    fn image(&self, id: u64) -> &Vec<u8> {
        self.images[id as usize].as_ref().unwrap()
    }

    fn home(&self, segment: u64, replica: usize) -> usize {
        ((segment * STEP + replica as u64) % BACKUPS as u64) as usize
    }

    /// Hands an op to the backup of a replica.
    fn take(&mut self, fleet: &mut Fleet, segment: u64, replica: usize, act: Act) -> Result<(), Refusal> {
        fleet.take(self.home(segment, replica), self.number, segment, act).map_err(|fault| {
            self.is_halted |= matches!(fault, TakeFault::Fault);
            fault.into()
        })
    }

    /// The opening of a head whose digest leaves these out.
    fn opening(&self, id: u64, leaving: &[u64]) -> Vec<u8> {
        let mut image = header(self.number, id, 0, self.sizes.segment);
        let is_listed = |s: &u64| *s == id || self.images[*s as usize].is_some() && !leaving.contains(s);
        let ids: Vec<u64> = (1..=id).filter(is_listed).collect();
        image.push(2);
        image.extend_from_slice(&(ids.len() as u32).to_be_bytes());
        for id in ids {
            image.extend_from_slice(&id.to_be_bytes());
        }
        image.push(3);
        image.extend_from_slice(&self.safe.to_be_bytes());
        image
    }

    /// Opens a head on its backups.
    fn open(&mut self, fleet: &mut Fleet, id: u64, image: Vec<u8>) -> Result<(), Refusal> {
        for replica in 0..REPLICAS {
            self.take(fleet, id, replica, Act::Open(&image))?;
        }
        self.taken = [image.len(); REPLICAS];
        self.rows[id as usize].opening = image.len();
        self.images[id as usize] = Some(image);
        self.head = id;
        Ok(())
    }

    /// The replica that lacks most, and of several the first.
    fn lagging(&self) -> Option<usize> {
        let replica = (0..REPLICAS).min_by_key(|&j| self.taken[j])?;
        (self.taken[replica] < self.image(self.head).len()).then_some(replica)
    }

    /// Hands each replica of the head all that it lacks.
    fn push(&mut self, fleet: &mut Fleet) -> Result<(), Refusal> {
        while let Some(replica) = self.lagging() {
            if self.is_halted {
                return Err(Refusal::Halted);
            }
            let at = self.taken[replica];
            let image = self.images[self.head as usize].take().unwrap();
            let taken = self.take(fleet, self.head, replica, Act::Extend { at, bytes: &image[at..] });
            let len = image.len();
            self.images[self.head as usize] = Some(image);
            taken?;
            self.taken[replica] = len;
        }
        Ok(())
    }

    fn count(&self, len: usize) -> usize {
        len.div_ceil(self.sizes.seglet)
    }

    fn free(&self) -> usize {
        self.sizes.seglets - self.closed - self.sizes.whole()
    }

    /// Whether a roll may begin that wants so many whole segments free.
    fn may_roll(&self, wanted: usize) -> bool {
        let most = self.sizes.segment / 32;
        let needed = wanted * self.sizes.whole() + self.count(self.image(self.head).len());
        self.listed + 1 <= most - 1 && needed <= self.free()
    }

    /// A roll, which may be the commit of a pass that has these victims.
    fn roll(&mut self, fleet: &mut Fleet, leaving: &[u64]) -> Result<(), Refusal> {
        let (old, id) = (self.head, self.take_id()?);
        let opening = self.opening(id, leaving);
        let listed = self.listed + 1;
        self.push(fleet)?;
        let (seglet, len) = (self.sizes.seglet, self.image(old).len());
        self.open(fleet, id, opening)?;
        for replica in 0..REPLICAS {
            self.take(fleet, old, replica, Act::Close)?;
        }
        let seglets = self.count(len);
        self.images[old as usize].as_mut().unwrap().shrink_to(seglets * seglet);
        self.closed += seglets;
        self.listed = listed;
        Ok(())
    }

    /// The slot of the key, and the version and length of its object.
    fn find(&self, hash: u64, table: u64, key: &[u8]) -> Option<(usize, u64, usize)> {
        let mut found = (0, 0);
        let slot = self.index.find(hash, |slot| match read_entry(&self.image(slot.segment as u64)[slot.at as usize..]) {
            Some((Entry::Object { table: t, key: k, version, .. }, len)) if t == table && k == key => {
                found = (version, len);
                true
            }
            _ => false,
        });
        slot.map(|slot| (slot, found.0, found.1))
    }

    /// The tests of each command.
    fn admit(&self, table: u64, key: &[u8]) -> Result<(), Refusal> {
        if !have(&self.tablets, table, key) {
            return Err(Refusal::NoTablet);
        }
        if self.history.len >= MAX_RECORDS {
            return Err(Refusal::HistoryFull);
        }
        Ok(())
    }

    /// Writes the answer to a get.
    fn get(&mut self, table: u64, key: &[u8], output: &mut impl Write) -> Result<io::Result<()>, Refusal> {
        if self.is_halted {
            return Err(Refusal::Halted);
        }
        self.admit(table, key)?;
        let Some((slot, version, _)) = self.find(hash(table, key), table, key) else {
            self.history.push(2, table, key, 0, &[]);
            return Ok(output.write_all(b"none\n"));
        };
        let slot = self.index.slots[slot];
        let image = self.images[slot.segment as usize].as_ref().unwrap();
        let Some((Entry::Object { value, .. }, _)) = read_entry(&image[slot.at as usize..]) else {
            unreachable!()
        };
        self.history.push(1, table, key, version, value);
        let wrote = write!(output, "{version} ").and_then(|()| output.write_all(value)).and_then(|()| output.write_all(b"\n"));
        Ok(wrote)
    }

    /// Puts, and pushes until it is durable. The version.
    fn put(&mut self, fleet: &mut Fleet, table: u64, key: &[u8], value: &[u8]) -> Result<u64, Refusal> {
        match self.try_put(table, key, value) {
            Err(Refusal::Rolling) => {
                self.roll(fleet, &[])?;
                self.try_put(table, key, value)
            }
            put => put,
        }
        .and_then(|version| self.push(fleet).map(|()| version))
    }

    fn try_put(&mut self, table: u64, key: &[u8], value: &[u8]) -> Result<u64, Refusal> {
        if self.is_halted {
            return Err(Refusal::Halted);
        }
        if 50 + 2 * key.len() + value.len() > self.sizes.segment / 4 {
            return Err(Refusal::TooBig);
        }
        self.admit(table, key)?;
        let hash = hash(table, key);
        let old = self.find(hash, table, key);
        let version = old.map_or(self.safe, |(_, version, _)| version + 1);
        if version > MAX_VERSION {
            return Err(Refusal::VersionsSpent);
        }
        let unit = OBJECT + key.len() + value.len() + if old.is_some() { TOMBSTONE + key.len() } else { 0 };
        if self.image(self.head).len() + unit > self.sizes.segment {
            return Err(if self.may_roll(3) { Refusal::Rolling } else { Refusal::Full });
        }
        if let Some((slot, version, had)) = old {
            let segment = self.index.slots[slot].segment;
            self.rows[segment as usize].live -= had;
            let image = self.images[self.head as usize].as_mut().unwrap();
            write_tombstone(image, table, version, segment as u64, key);
        }
        let image = self.images[self.head as usize].as_mut().unwrap();
        let new = Slot { hash, segment: self.head as u32, at: image.len() as u32 };
        write_object(image, table, version, key, value);
        self.rows[self.head as usize].live += OBJECT + key.len() + value.len();
        match old {
            Some((slot, ..)) => self.index.slots[slot] = new,
            None => {
                self.index.insert(new);
                self.safe += 1;
            }
        }
        self.history.push(0, table, key, version, value);
        Ok(version)
    }

    /// Puts an object with its own version behind the head's others. No replica has it yet.
    fn load(&mut self, fleet: &mut Fleet, claim: &Claim) -> Result<Slot, Refusal> {
        if 50 + 2 * claim.key.len() + claim.value.len() > self.sizes.segment / 4 {
            return Err(Refusal::TooBig);
        }
        if !have(&self.tablets, claim.table, claim.key) {
            return Err(Refusal::NoTablet);
        }
        if self.image(self.head).len() + OBJECT + claim.key.len() + claim.value.len() > self.sizes.segment {
            if !self.may_roll(2) {
                return Err(Refusal::Full);
            }
            self.roll(fleet, &[])?;
        }
        let image = self.images[self.head as usize].as_mut().unwrap();
        let at = image.len() as u32;
        write_object(image, claim.table, claim.version, claim.key, claim.value);
        let slot = Slot { hash: hash(claim.table, claim.key), segment: self.head as u32, at };
        self.index.insert(slot);
        self.rows[self.head as usize].live += OBJECT + claim.key.len() + claim.value.len();
        Ok(slot)
    }

    fn is_held(&self, table: u64, key: &[u8], id: u64, at: usize) -> Option<usize> {
        self.index.find(hash(table, key), |slot| slot.segment as u64 == id && slot.at as usize == at)
    }

    /// How many survivors what a pass keeps of these fills. It reads no more of them once all the rest fits the last one.
    fn count_survivors(&self, victims: &[u64]) -> usize {
        let mut left: usize = victims.iter().map(|&id| self.image(id).len()).sum();
        let (mut count, mut level) = (1, HEADER);
        for &id in victims {
            if level + left <= self.sizes.segment || count > MAX_SURVIVORS {
                break;
            }
            let image = self.image(id);
            left -= image.len();
            let mut at = 0;
            while let Some((entry, len)) = read_entry(&image[at..]) {
                let is_kept = match entry {
                    Entry::Object { table, key, .. } => self.is_held(table, key, id, at).is_some(),
                    Entry::Tombstone { segment, .. } => self.is_listed(segment),
                    _ => false,
                };
                if is_kept && level + len > self.sizes.segment {
                    (count, level) = (count + 1, HEADER);
                }
                level += if is_kept { len } else { 0 };
                at += len;
            }
        }
        count
    }

    fn is_listed(&self, id: u64) -> bool {
        self.images.get(id as usize).is_some_and(Option::is_some)
    }

    /// The tests of a pass. How many survivors it has.
    fn admit_pass(&self, victims: &[u64]) -> Result<usize, Refusal> {
        if self.is_halted {
            return Err(Refusal::Halted);
        }
        if victims.is_empty() {
            return Err(Refusal::NoVictims);
        }
        if victims.len() > MAX_VICTIMS {
            return Err(Refusal::TooMany);
        }
        for (at, id) in victims.iter().enumerate() {
            if victims[..at].contains(id) {
                return Err(Refusal::Twice(*id));
            }
            if *id == self.head {
                return Err(Refusal::IsHead(*id));
            }
            if !self.is_listed(*id) {
                return Err(Refusal::NotInLog(*id));
            }
        }
        let count = self.count_survivors(victims);
        if count > MAX_SURVIVORS {
            return Err(Refusal::TooMuch);
        }
        let most = self.sizes.segment / 32;
        if (count + 1) * self.sizes.whole() > self.free() || self.listed + count + 1 > most + victims.len() {
            return Err(Refusal::Full);
        }
        Ok(count)
    }

    /// Copies what is kept of a victim to the survivors.
    fn copy(&mut self, id: u64, ids: &[u64], survivors: &mut [Vec<u8>], filling: &mut usize) {
        let victim = self.images[id as usize].take().unwrap();
        let mut at = 0;
        while let Some((entry, len)) = read_entry(&victim[at..]) {
            let (slot, is_kept) = match entry {
                Entry::Object { table, key, .. } => {
                    let slot = self.is_held(table, key, id, at);
                    (slot, slot.is_some())
                }
                Entry::Tombstone { segment, .. } => (None, segment == id || self.is_listed(segment)),
                _ => (None, false),
            };
            if is_kept {
                if survivors[*filling].len() + len > self.sizes.segment {
                    *filling += 1;
                }
                let row = &mut self.rows[ids[*filling] as usize];
                if let Some(slot) = slot {
                    let slot = &mut self.index.slots[slot];
                    (slot.segment, slot.at) = (ids[*filling] as u32, survivors[*filling].len() as u32);
                    row.live += len;
                }
                survivors[*filling].extend_from_slice(&victim[at..at + len]);
            }
            at += len;
        }
        self.images[id as usize] = Some(victim);
    }

    /// Cleans these segments. It answers the survivors and the new head.
    fn clean(&mut self, fleet: &mut Fleet, victims: &[u64]) -> Result<(Vec<u64>, u64), Refusal> {
        let count = self.admit_pass(victims)?;
        let ids = (0..count).map(|_| self.take_id()).collect::<Result<Vec<u64>, Refusal>>()?;
        let mut survivors: Vec<_> = ids.iter().map(|&id| header(self.number, id, 1, self.sizes.segment)).collect();
        let mut filling = 0;
        for &id in victims {
            self.copy(id, &ids, &mut survivors, &mut filling);
        }
        for (&id, mut image) in ids.iter().zip(survivors) {
            for replica in 0..REPLICAS {
                self.take(fleet, id, replica, Act::Seal(&image))?;
            }
            let seglets = self.count(image.len());
            image.shrink_to(seglets * self.sizes.seglet);
            self.closed += seglets;
            self.rows[id as usize].opening = HEADER;
            self.images[id as usize] = Some(image);
        }
        self.listed = self.listed + count - victims.len();
        self.roll(fleet, victims)?;
        for &id in victims {
            let image = self.images[id as usize].take().unwrap();
            self.closed -= self.count(image.len());
        }
        for &id in victims {
            for (segment, len) in self.named[id as usize].take().into_iter().flatten() {
                self.naming[segment as usize] -= len;
            }
        }
        for (row, named) in self.rows.iter_mut().zip(&mut self.named) {
            let Some(named) = named else { continue };
            for victim in victims {
                if let Ok(at) = named.binary_search_by_key(victim, |&(id, _)| id) {
                    row.stones -= std::mem::take(&mut named[at].1);
                }
            }
        }
        let mut waiting = victims.to_vec();
        waiting.sort_unstable();
        for id in waiting {
            for replica in 0..REPLICAS {
                self.take(fleet, id, replica, Act::Free)?;
            }
        }
        Ok((ids, self.head))
    }
}

// ---- a cleaner of its own

/// A pass comes first if the closed segments, each counted whole, are so many percent of memory, or if their tombstones are so many
/// percent of the memory that objects and the spared segments leave.
const STORED: usize = 130;
const STONES: usize = 25;

impl Master {
    /// A cleaner begins something while fewer whole segments are free, or the digest has room for fewer.
    fn spare(&self) -> usize {
        4 + (self.sizes.seglets / self.sizes.whole() / 256).min(4)
    }

    /// Compacts a segment or makes a whole pass if memory is short. The answer is whether it did.
    fn tend(&mut self, fleet: &mut Fleet) -> Result<bool, Refusal> {
        let (bytes, most) = (self.free() * self.sizes.seglet, self.sizes.segment / 32);
        let spare = self.spare();
        if bytes >= spare * self.sizes.segment && self.listed + spare <= most {
            return Ok(false);
        }
        let closed: Vec<u64> = (1..self.next).filter(|&id| id != self.head && self.is_listed(id)).collect();
        for &id in &closed {
            self.note(id);
        }
        let best = self.best(&closed);
        let memory = self.sizes.seglets * self.sizes.seglet;
        let wants_pass = closed.len() + 1 + spare > most || self.is_long(&closed, memory);
        let victims = if best.is_some() && !wants_pass { None } else { self.victims(&closed, best.is_some()) };
        match (victims, best) {
            (Some(victims), _) => self.clean(fleet, &victims).map(|_| true),
            (None, Some(id)) => {
                self.compact(id);
                Ok(true)
            }
            (None, None) => {
                let chosen = self.choose(&closed);
                if chosen.is_empty() || self.admit_pass(&chosen).is_err() {
                    return Ok(false);
                }
                self.clean(fleet, &chosen).map(|_| true)
            }
        }
    }

    /// Whether the closed segments are many for a memory of so many bytes, or their tombstones many for what objects leave of it.
    fn is_long(&self, closed: &[u64], memory: usize) -> bool {
        let (mut objects, mut stones) = (0, 0);
        for &id in closed {
            let row = &self.rows[id as usize];
            objects += row.kept() - row.stones;
            stones += row.stones;
        }
        closed.len() * self.sizes.segment * 100 >= STORED * memory || stones * 100 >= STONES * memory.saturating_sub(objects + self.spare() * self.sizes.segment)
    }

    /// Reads which segments the tombstones of a closed segment name, once.
    fn note(&mut self, id: u64) {
        if self.named[id as usize].is_some() {
            return;
        }
        let (image, mut at, mut all) = (self.image(id), 0, Vec::new());
        while let Some((entry, len)) = read_entry(&image[at..]) {
            if let Entry::Tombstone { segment, .. } = entry {
                all.push((segment, len));
            }
            at += len;
        }
        all.sort_unstable();
        let mut named: Vec<(u64, usize)> = Vec::new();
        for (segment, len) in all.into_iter().filter(|(segment, _)| self.is_listed(*segment)) {
            match named.last_mut() {
                Some((last, sum)) if *last == segment => *sum += len,
                _ => named.push((segment, len)),
            }
        }
        self.rows[id as usize].stones = named.iter().map(|(_, len)| len).sum();
        for &(segment, len) in &named {
            self.naming[segment as usize] += len;
        }
        self.named[id as usize] = Some(named);
    }

    fn gain(&self, id: u64) -> usize {
        let row = &self.rows[id as usize];
        self.count(self.image(id).len()) - self.count(row.opening + row.kept())
    }

    /// The segment whose compaction gives back most for what it keeps, if one gives back a seglet.
    fn best(&self, closed: &[u64]) -> Option<u64> {
        let (mut best, mut gained, mut cost) = (None, 0, 1);
        for &id in closed {
            let (gain, kept) = (self.gain(id), self.rows[id as usize].kept());
            if gain * cost > gained * (kept + 1) {
                (best, gained, cost) = (Some(id), gain, kept + 1);
            }
        }
        best
    }

    fn three_quarters(&self) -> usize {
        self.sizes.segment - HEADER - self.sizes.segment / 4
    }

    /// The victims of the next pass: those that keep least for what they give back. None if no pass gives anything back, or if a
    /// compaction has to come before, since little would be left.
    fn victims(&self, closed: &[u64], may_compact: bool) -> Option<Vec<u64>> {
        let (last, free) = (self.sizes.segment - HEADER, self.free());
        let most = (free / self.sizes.whole()).saturating_sub(3).clamp(1, MAX_SURVIVORS);
        let space = last + (most - 1) * self.three_quarters();
        let (mut kept, mut seglets, mut victims) = (0, 0, Vec::new());
        while victims.len() < MAX_VICTIMS {
            let mut best: Option<(u64, usize, usize)> = None;
            for &id in closed {
                let (len, keeps) = (self.count(self.image(id).len()), self.rows[id as usize].kept());
                let gives = len * self.sizes.seglet - keeps + 1 + 2 * self.naming[id as usize];
                let is_better = best.is_none_or(|(_, kept, given)| keeps * given < kept * gives);
                if is_better && keeps <= space - kept && !victims.contains(&id) {
                    best = Some((id, keeps, gives));
                }
            }
            let Some((id, keeps, _)) = best else { break };
            victims.push(id);
            kept += keeps;
            seglets += self.count(self.image(id).len());
        }
        let survivors = kept.saturating_sub(last).div_ceil(self.three_quarters()) + 1;
        let has_places = closed.len() - victims.len() + survivors + 2 <= self.sizes.segment / 32;
        let bytes = free * self.sizes.seglet;
        let gives = !victims.is_empty() && seglets > self.count(kept) + survivors;
        let fits = has_places && bytes >= (survivors + 1) * self.sizes.segment;
        let leaves_little = may_compact && bytes < (survivors + 2) * self.sizes.segment;
        (gives && fits && !leaves_little).then_some(victims)
    }

    /// By least kept bytes, up to the first segment that a pass may not have too.
    fn choose(&self, closed: &[u64]) -> Vec<u64> {
        let mut ranked = closed.to_vec();
        ranked.sort_unstable_by_key(|&id| (self.rows[id as usize].kept(), id));
        ranked.truncate(MAX_VICTIMS);
        let mut level = (1, HEADER);
        let fitting = ranked.iter().take_while(|&&id| {
            level = self.filled(id, level);
            level.0 <= MAX_SURVIVORS && (level.0 + 1) * self.sizes.whole() <= self.free()
        });
        fitting.copied().collect()
    }

    /// How many survivors are begun, and the length of the last one, once what is kept of this segment is copied too.
    fn filled(&self, id: u64, (mut count, mut level): (usize, usize)) -> (usize, usize) {
        if level + self.rows[id as usize].kept() <= self.sizes.segment {
            return (count, level + self.rows[id as usize].kept());
        }
        let (image, mut at) = (self.image(id), 0);
        while let Some((entry, len)) = read_entry(&image[at..]) {
            let is_kept = match entry {
                Entry::Object { table, key, .. } => self.is_held(table, key, id, at).is_some(),
                Entry::Tombstone { segment, .. } => self.is_listed(segment),
                _ => false,
            };
            if is_kept && level + len > self.sizes.segment {
                (count, level) = (count + 1, HEADER);
            }
            level += if is_kept { len } else { 0 };
            at += len;
        }
        (count, level)
    }

    /// Rewrites a closed segment without its dead entries. Its replicas stay as they are.
    fn compact(&mut self, id: u64) {
        let old = self.images[id as usize].take().unwrap();
        let row = self.rows[id as usize];
        let mut new = Vec::with_capacity(self.count(row.opening + row.kept()) * self.sizes.seglet);
        new.extend_from_slice(&old[..row.opening]);
        let mut at = row.opening;
        while let Some((entry, len)) = read_entry(&old[at..]) {
            let is_kept = match entry {
                Entry::Object { table, key, .. } => match self.is_held(table, key, id, at) {
                    Some(slot) => {
                        self.index.slots[slot].at = new.len() as u32;
                        true
                    }
                    None => false,
                },
                Entry::Tombstone { segment, .. } => segment == id || self.is_listed(segment),
                _ => false,
            };
            if is_kept {
                new.extend_from_slice(&old[at..at + len]);
            }
            at += len;
        }
        self.closed = self.closed + self.count(new.len()) - self.count(old.len());
        self.images[id as usize] = Some(new);
    }

    /// Puts, and cleans: before it if it would be refused as Full, as long as that gives room, and once behind it.
    fn put_and_tend(&mut self, fleet: &mut Fleet, table: u64, key: &[u8], value: &[u8]) -> Result<u64, Refusal> {
        let version = loop {
            match self.put(fleet, table, key, value) {
                Err(Refusal::Full) => {
                    let free = self.free();
                    if !self.tend(fleet)? || self.free() <= free {
                        return Err(Refusal::Full);
                    }
                }
                answer => break answer?,
            }
        };
        self.tend(fleet)?;
        Ok(version)
    }
}

// ---- recovery

/// Which replicas a recovery reads, and the safe version of the head.
struct Plan<'a> {
    texts: Vec<&'a [u8]>,
    safe: u64,
}

/// The replica of a segment that a recovery reads: a closed one, else the longest open one; of several the first.
fn usable(backups: &[Backup], master: u64, segment: u64) -> Option<&[u8]> {
    let mut best: Option<&Replica> = None;
    for backup in backups {
        let Ok(at) = backup.replicas.binary_search_by(|it| it.place().cmp(&(master, segment))) else {
            continue;
        };
        let one = &backup.replicas[at];
        if best.is_none_or(|best| best.is_open && (!one.is_open || best.bytes.len() < one.bytes.len())) {
            best = Some(one);
        }
    }
    best.map(|it| &it.bytes[..])
}

/// Tests each replica of the master, and finds the newest log.
fn plan(backups: &[Backup], master: u64) -> Result<Plan<'_>, Refusal> {
    let (mut newest, mut head): (u64, Option<&Replica>) = (0, None);
    for (at, backup) in backups.iter().enumerate() {
        for one in backup.replicas.iter().filter(|it| it.master == master) {
            match read_segment(&one.bytes, master, one.segment) {
                None => return Err(Refusal::BadReplica(at, one.segment)),
                Some(Opening::Survivor) => {}
                Some(Opening::Head { .. }) => {
                    if one.segment > newest {
                        (newest, head) = (one.segment, None);
                    }
                    let is_better = one.is_open && head.is_none_or(|best| best.bytes.len() < one.bytes.len());
                    if one.segment == newest && is_better {
                        head = Some(one);
                    }
                }
            }
        }
    }
    if newest == 0 {
        return Err(Refusal::NoHead);
    }
    let head = head.ok_or(Refusal::HeadClosed(newest))?;
    let Some((Opening::Head { ids, safe }, _)) = read_opening(&head.bytes, master, newest) else {
        unreachable!()
    };
    let others = &ids[..ids.len() - 8];
    let mut texts = others
        .chunks_exact(8)
        .map(|id| usable(backups, master, u64_at(id, 0)).ok_or(Refusal::Missing(u64_at(id, 0))))
        .collect::<Result<Vec<_>, Refusal>>()?;
    texts.push(&head.bytes);
    Ok(Plan { texts, safe })
}

/// The objects of a plan in order, and its safe version.
fn rebuild<'a>(plan: &Plan<'a>, tablets: &[Tablet]) -> Result<(Vec<Claim<'a>>, u64), Refusal> {
    let (mut claims, mut safe) = (Vec::new(), plan.safe);
    for text in &plan.texts {
        let mut at = 0;
        while let Some((entry, len)) = read_entry(&text[at..]) {
            at += len;
            let claim = match entry {
                Entry::Object { table, key, version, value } => Claim { table, key, version, is_dead: false, value },
                Entry::Tombstone { table, key, version, .. } => Claim { table, key, version, is_dead: true, value: &[] },
                _ => continue,
            };
            if !have(tablets, claim.table, claim.key) {
                return Err(Refusal::Stray);
            }
            safe = safe.max(claim.version + 1);
            claims.push(claim);
        }
    }
    claims.sort_unstable_by(Claim::rank);
    for pair in claims.windows(2) {
        if pair[0].rank(&pair[1]).is_eq() && pair[0].value != pair[1].value {
            return Err(Refusal::Clash);
        }
    }
    let mut left = 0;
    for at in 0..claims.len() {
        let is_last = claims.get(at + 1).is_none_or(|it| (it.table, it.key) != (claims[at].table, claims[at].key));
        if is_last && !claims[at].is_dead {
            claims.swap(left, at);
            left += 1;
        }
    }
    claims.truncate(left);
    Ok((claims, safe))
}

// ---- the session

struct Session {
    sizes: Sizes,
    fleet: Fleet,
    master: Option<Master>,
    /// The master that a recovery is for, and the greatest number that was used.
    number: u64,
    used: u64,
    /// Whether the master cleans by itself.
    tends: bool,
}

enum Line<'a> {
    Idle,
    Put(u64, &'a [u8], &'a [u8]),
    Get(u64, &'a [u8]),
    Clean(Vec<u64>),
    Stop(u64),
    Fault(u64, bool),
    Lose(usize),
    Crash,
    Recover,
}

/// A number in decimal digits, without leading zeros.
fn number(word: &[u8]) -> Option<u64> {
    if word.is_empty() || word[0] == b'0' && word.len() > 1 {
        return None;
    }
    word.iter().try_fold(0u64, |number, &byte| {
        let digit = byte.is_ascii_digit().then(|| u64::from(byte - b'0'))?;
        number.checked_mul(10)?.checked_add(digit)
    })
}

/// Whether all bytes are visible. Its loop has no way out, so that it tests many bytes at once.
fn is_word(word: &[u8]) -> bool {
    word.iter().fold(!word.is_empty(), |all, byte| all & (0x21..=0x7E).contains(byte))
}

fn key(word: &[u8]) -> Option<&[u8]> {
    (word.len() <= MAX_KEY && is_word(word)).then_some(word)
}

/// What a line says. A value is the rest of its line: a space in it isn't visible.
fn parse(text: &[u8]) -> Option<Line<'_>> {
    if text.is_empty() || text[0] == b'#' {
        return Some(Line::Idle);
    }
    let count = if text.starts_with(b"put ") { 4 } else { usize::MAX };
    let mut words = text.splitn(count, |&byte| byte == b' ');
    let line = match words.next()? {
        b"put" => {
            let (table, key, value) = (number(words.next()?)?, key(words.next()?)?, words.next()?);
            is_word(value).then_some(Line::Put(table, key, value))?
        }
        b"get" => Line::Get(number(words.next()?)?, key(words.next()?)?),
        b"clean" => {
            let ids = words.by_ref().map(number).collect::<Option<Vec<u64>>>()?;
            (!ids.is_empty()).then_some(Line::Clean(ids))?
        }
        b"stop" => Line::Stop(number(words.next()?)?),
        b"fault" => {
            let takes = number(words.next()?).filter(|&takes| takes > 0)?;
            match words.next()? {
                b"taken" => Line::Fault(takes, true),
                b"lost" => Line::Fault(takes, false),
                _ => return None,
            }
        }
        b"lose" => Line::Lose(number(words.next()?).filter(|&backup| backup < BACKUPS as u64)? as usize),
        b"crash" => Line::Crash,
        b"recover" => Line::Recover,
        _ => return None,
    };
    words.next().is_none().then_some(line)
}

impl Session {
    fn start(sizes: Sizes, tends: bool) -> Option<Session> {
        let mut fleet = Fleet::new();
        let master = Master::new(1, sizes, 1, &mut fleet).ok()?;
        Some(Session { sizes, fleet, master: Some(master), number: 1, used: 1, tends })
    }

    /// Writes why a line was refused. A fleet that takes no more drops its master.
    fn refuse(&mut self, refusal: Refusal, output: &mut impl Write) -> io::Result<()> {
        if let Refusal::Spent = refusal {
            self.fleet.end = u64::MAX;
            self.master = None;
            return output.write_all(b"stopped\n");
        }
        writeln!(output, "refused {refusal}")
    }

    fn run(&mut self, line: Line, output: &mut impl Write) -> io::Result<()> {
        match line {
            Line::Idle => Ok(()),
            Line::Put(table, key, value) => {
                let Some(master) = &mut self.master else {
                    return self.refuse(Refusal::Down, output);
                };
                let made = match self.tends {
                    true => master.put_and_tend(&mut self.fleet, table, key, value),
                    false => master.put(&mut self.fleet, table, key, value),
                };
                match made {
                    Ok(version) => writeln!(output, "ok {version}"),
                    Err(refusal) => self.refuse(refusal, output),
                }
            }
            Line::Get(table, key) => {
                let Some(master) = &mut self.master else {
                    return self.refuse(Refusal::Down, output);
                };
                match master.get(table, key, output) {
                    Ok(wrote) => wrote,
                    Err(refusal) => self.refuse(refusal, output),
                }
            }
            Line::Clean(victims) => self.clean(&victims, output),
            Line::Stop(takes) => {
                self.fleet.end = self.fleet.takes.saturating_add(takes);
                writeln!(output, "stop {takes}")
            }
            Line::Fault(takes, taken) => {
                self.fleet.asked = (takes, taken);
                writeln!(output, "fault {takes} {}", if taken { "taken" } else { "lost" })
            }
            Line::Lose(backup) => {
                if self.master.is_some() {
                    return self.refuse(Refusal::Up, output);
                }
                self.fleet.backups[backup] = Backup::default();
                writeln!(output, "lost {backup}")
            }
            Line::Crash => {
                if self.master.take().is_none() {
                    return self.refuse(Refusal::Down, output);
                }
                output.write_all(b"crashed\n")
            }
            Line::Recover => self.recover(output),
        }
    }

    fn clean(&mut self, victims: &[u64], output: &mut impl Write) -> io::Result<()> {
        let Some(master) = &mut self.master else {
            return self.refuse(Refusal::Down, output);
        };
        match master.clean(&mut self.fleet, victims) {
            Ok((survivors, head)) => {
                write!(output, "cleaned")?;
                for id in survivors {
                    write!(output, " {id}")?;
                }
                writeln!(output, " {head}")
            }
            Err(refusal) => self.refuse(refusal, output),
        }
    }

    /// Rebuilds the table from these backups, and makes the next master of it, with the objects' slots in their order.
    fn adopt(&mut self, old: &[Backup]) -> Result<(Master, Vec<Slot>), Refusal> {
        let plan = plan(old, self.number)?;
        let (claims, safe) = rebuild(&plan, &tablets())?;
        self.used += 1;
        let mut master = Master::new(self.used, self.sizes, safe, &mut self.fleet)?;
        let slots = claims.iter().map(|claim| master.load(&mut self.fleet, claim)).collect::<Result<Vec<_>, Refusal>>()?;
        master.push(&mut self.fleet)?;
        Ok((master, slots))
    }

    fn recover(&mut self, output: &mut impl Write) -> io::Result<()> {
        if self.master.is_some() {
            return self.refuse(Refusal::Up, output);
        }
        // What the old masters have lies apart while the new one is loaded.
        let old = std::mem::replace(&mut self.fleet.backups, no_backups());
        let adopted = self.adopt(&old);
        for (backup, old) in self.fleet.backups.iter_mut().zip(old) {
            backup.replicas.splice(0..0, old.replicas);
        }
        let (master, slots) = match adopted {
            Ok(adopted) => adopted,
            Err(refusal) => return self.refuse(refusal, output),
        };
        self.number = master.number;
        if let Err(fault) = self.fleet.retire(master.number) {
            return self.refuse(fault.into(), output);
        }
        for slot in &slots {
            let image = &master.image(slot.segment as u64)[slot.at as usize..];
            let Some((Entry::Object { table, key, version, value }, _)) = read_entry(image) else {
                unreachable!()
            };
            write!(output, "{table} ")?;
            output.write_all(key)?;
            write!(output, " {version} ")?;
            output.write_all(value)?;
            output.write_all(b"\n")?;
        }
        self.master = Some(master);
        writeln!(output, "recovered {}", slots.len())
    }
}

enum RunFault {
    BadLine(u64),
    Read,
    Write,
}

/// Runs a line. The answer is whether more lines may come.
fn run_next(
    input: &mut BufReader<impl Read>,
    output: &mut impl Write,
    line: &mut Vec<u8>,
    session: &mut Session,
    at: u64,
) -> Result<ControlFlow<()>, RunFault> {
    line.clear();
    // Whoever sends a line and waits for its answer gets it.
    if input.buffer().is_empty() {
        output.flush().map_err(|_| RunFault::Write)?;
    }
    let read = input.by_ref().take(MAX_LINE + 1).read_until(b'\n', line).map_err(|_| RunFault::Read)?;
    if read == 0 {
        return Ok(ControlFlow::Break(()));
    }
    let text = match line.strip_suffix(b"\n") {
        Some(text) => text,
        None if read as u64 > MAX_LINE => return Err(RunFault::BadLine(at)),
        None => line,
    };
    let line = parse(text).ok_or(RunFault::BadLine(at))?;
    session.run(line, output).map_err(|_| RunFault::Write)?;
    Ok(ControlFlow::Continue(()))
}

fn main() -> ExitCode {
    let words: Vec<usize> = std::env::args().skip(1).map(|word| word.parse().unwrap()).collect();
    let mut session = Session::start(Sizes { segment: words[0], seglet: words[1], seglets: words[2] }, words.len() > 3).unwrap();
    let mut input = BufReader::with_capacity(BUFFER, io::stdin().lock());
    let mut output = BufWriter::with_capacity(BUFFER, io::stdout().lock());
    let mut line = Vec::new();
    let mut at = 1;
    let ran = loop {
        match run_next(&mut input, &mut output, &mut line, &mut session, at) {
            Ok(ControlFlow::Continue(())) => at += 1,
            Ok(ControlFlow::Break(())) => break output.flush().map_err(|_| RunFault::Write),
            Err(fault) => break output.flush().map_err(|_| RunFault::Write).and(Err(fault)),
        }
    };
    match ran {
        Ok(()) => return ExitCode::SUCCESS,
        Err(RunFault::BadLine(at)) => {
            eprintln!("plain: bad line {at}");
            return ExitCode::from(2);
        }
        Err(RunFault::Read) => eprintln!("plain: cannot read"),
        Err(RunFault::Write) => eprintln!("plain: cannot write"),
    }
    ExitCode::FAILURE
}
