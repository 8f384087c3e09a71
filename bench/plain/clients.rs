//! A plain Rust program of the same rules, without contracts: clients in threads of their own over one locked store. Its words
//! are how many clients there are, how many rounds each makes, and the bytes of a segment. It prints what `ramlog` prints to
//! the line `clients`. As there, each holding of the lock makes at most one step: it applies a command, or hands one unit to one
//! replica. Only a roll is one step here.
//!
//! With the words `load`, `A`, `C` or `W`, a number of threads, of operations, of objects and of bytes, it makes what `workload`
//! makes: half reads and half updates, reads, or updates, of objects at random with values of so many bytes, each operation
//! timed, over three replicas of each segment of 256 kilobytes. It prints how many operations it made in a second.
//!
//! Two further words may say otherwise:
//!
//! - `three` or `six`: with `three`, as in `ramlog`, the holding that makes a step also answers a call whose record is durable
//!   then, so a put takes the lock three times and a get once. With `six` an answer has a holding of its own.
//! - `back` or `sleep`: with `back`, as in `ramlog`, a thread that finds the lock held tries again, and pauses and lets other threads
//!   run before each try, before it sleeps. With `sleep` it waits as Rust's mutex does.

use std::collections::HashMap;
use std::hint::{black_box, spin_loop};
use std::sync::{Mutex, MutexGuard, TryLockError};
use std::thread;
use std::time::Instant;

/// How often the processor pauses before a thread tries the second time, how often at most before it tries again, and how often the
/// thread tries before it sleeps.
const FIRST_PAUSES: usize = 16;
const MOST_PAUSES: usize = 128;
const TRIES: usize = 2_000;

/// Where an object is: its version, its segment, and where its value begins and ends there.
#[derive(Clone, Copy)]
struct Place {
    version: u64,
    segment: usize,
    from: usize,
    to: usize,
}

/// A call that was accepted, and its reply.
#[allow(dead_code)]
struct Record {
    seat: u64,
    key: Box<[u8]>,
    value: Option<Box<[u8]>>,
    version: u64,
}

struct Master<const REPLICAS: usize> {
    size: usize,
    /// The images of all segments, the head last, and the replicas of each.
    images: Vec<Vec<u8>>,
    replicas: Vec<[Vec<u8>; REPLICAS]>,
    /// Where each unit of the head ends, and its record.
    units: Vec<(usize, usize)>,
    /// How many units of the head each replica has.
    sent: [usize; REPLICAS],
    objects: HashMap<Box<[u8]>, Place>,
    safe: u64,
    history: Vec<Record>,
    /// The place behind the last record that each seat was answered.
    answered: Vec<usize>,
}

/// What comes of a step that applies a command.
enum Applied {
    Done(usize),
    Rolling,
}

impl<const REPLICAS: usize> Master<REPLICAS> {
    fn new(size: usize, seats: usize) -> Self {
        let mut master = Master {
            size,
            images: Vec::new(),
            replicas: Vec::new(),
            units: Vec::new(),
            sent: [0; REPLICAS],
            objects: HashMap::new(),
            safe: 1,
            history: Vec::new(),
            answered: vec![0; seats],
        };
        master.roll();
        master
    }

    fn roll(&mut self) {
        let id = self.images.len() as u64 + 1;
        let mut image = vec![1];
        image.extend_from_slice(&1u64.to_be_bytes());
        image.extend_from_slice(&id.to_be_bytes());
        image.extend_from_slice(&[0, 2]);
        image.extend_from_slice(&(id as u32).to_be_bytes());
        for id in 1..=id {
            image.extend_from_slice(&id.to_be_bytes());
        }
        image.push(3);
        image.extend_from_slice(&self.safe.to_be_bytes());
        self.replicas.push(std::array::from_fn(|_| image.clone()));
        self.images.push(image);
        self.units.clear();
        self.sent = [0; REPLICAS];
    }

    fn put(&mut self, seat: u64, key: &[u8], value: &[u8]) -> Applied {
        let old = self.objects.get(key).copied();
        let unit = 23 + key.len() + value.len() + if old.is_some() { 27 + key.len() } else { 0 };
        if self.images.last().unwrap().len() + unit > self.size {
            return Applied::Rolling;
        }
        let segment = self.images.len() - 1;
        let image = &mut self.images[segment];
        let version = match old {
            Some(old) => {
                image.push(5);
                image.extend_from_slice(&1u64.to_be_bytes());
                image.extend_from_slice(&old.version.to_be_bytes());
                image.extend_from_slice(&(old.segment as u64 + 1).to_be_bytes());
                image.extend_from_slice(&(key.len() as u16).to_be_bytes());
                image.extend_from_slice(key);
                old.version + 1
            }
            None => {
                self.safe += 1;
                self.safe - 1
            }
        };
        image.push(4);
        image.extend_from_slice(&1u64.to_be_bytes());
        image.extend_from_slice(&version.to_be_bytes());
        image.extend_from_slice(&(key.len() as u16).to_be_bytes());
        image.extend_from_slice(&(value.len() as u32).to_be_bytes());
        image.extend_from_slice(key);
        let from = image.len();
        image.extend_from_slice(value);
        let place = Place { version, segment, from, to: image.len() };
        self.units.push((place.to, self.history.len()));
        self.objects.insert(key.into(), place);
        self.history.push(Record { seat, key: key.into(), value: Some(value.into()), version });
        Applied::Done(self.history.len() - 1)
    }

    fn get(&mut self, seat: u64, key: &[u8]) -> usize {
        let found = self.objects.get(key).copied();
        let value = found.map(|it| self.images[it.segment][it.from..it.to].into());
        self.history.push(Record { seat, key: key.into(), value, version: found.map_or(0, |it| it.version) });
        self.history.len() - 1
    }

    fn durable(&self) -> usize {
        let sent = self.sent.iter().min().copied().unwrap();
        self.units.get(sent).map_or(self.history.len(), |unit| unit.1)
    }

    fn settle(&mut self, seat: usize, place: usize) -> bool {
        if place >= self.durable() {
            return false;
        }
        self.answered[seat] = place + 1;
        true
    }

    /// Hands one unit to the replica that has the fewest, or rolls if each has all.
    fn push(&mut self, rolls: bool) {
        let least = (0..REPLICAS).min_by_key(|&at| self.sent[at]).unwrap();
        let at = self.sent[least];
        if at < self.units.len() {
            let replica = &mut self.replicas.last_mut().unwrap()[least];
            let image = self.images.last().unwrap();
            replica.extend_from_slice(&image[replica.len()..self.units[at].0]);
            self.sent[least] += 1;
        } else if rolls && at > 0 {
            self.roll();
        }
    }
}

/// A master that threads share.
struct Store<const REPLICAS: usize> {
    master: Mutex<Master<REPLICAS>>,
    /// Whether the holding that makes a step answers too.
    answers_at_once: bool,
    /// Whether a thread tries again before it sleeps.
    tries: bool,
}

impl<const REPLICAS: usize> Store<REPLICAS> {
    fn take(&self) -> MutexGuard<'_, Master<REPLICAS>> {
        if !self.tries {
            return self.master.lock().unwrap();
        }
        if let Some(guard) = self.attempt() {
            return guard;
        }
        let mut pauses = FIRST_PAUSES;
        for _ in 0..TRIES {
            for _ in 0..pauses {
                spin_loop();
            }
            if let Some(guard) = self.attempt() {
                return guard;
            }
            thread::yield_now();
            pauses = (2 * pauses).min(MOST_PAUSES);
        }
        self.master.lock().unwrap()
    }

    /// Takes the lock if no thread has it.
    fn attempt(&self) -> Option<MutexGuard<'_, Master<REPLICAS>>> {
        match self.master.try_lock() {
            Ok(guard) => Some(guard),
            Err(TryLockError::WouldBlock) => None,
            Err(TryLockError::Poisoned(_)) => panic!("a client panicked"),
        }
    }

    /// Answers the call if its record is durable, in the holding of its step.
    fn answer(&self, master: &mut Master<REPLICAS>, seat: usize, place: usize) -> bool {
        self.answers_at_once && master.settle(seat, place)
    }

    fn finish(&self, seat: usize, place: usize) {
        loop {
            let mut master = self.take();
            if master.settle(seat, place) {
                return;
            }
            if !self.answers_at_once {
                drop(master);
                master = self.take();
            }
            master.push(false);
            if self.answer(&mut master, seat, place) {
                return;
            }
        }
    }

    fn put(&self, seat: usize, key: &[u8], value: &[u8]) {
        loop {
            let mut master = self.take();
            let Applied::Done(place) = master.put(seat as u64, key, value) else {
                drop(master);
                self.take().push(true);
                continue;
            };
            let is_answered = self.answer(&mut master, seat, place);
            drop(master);
            if !is_answered {
                self.finish(seat, place);
            }
            return;
        }
    }

    fn get(&self, seat: usize, key: &[u8]) {
        let mut master = self.take();
        let place = master.get(seat as u64, key);
        let is_answered = self.answer(&mut master, seat, place);
        drop(master);
        if !is_answered {
            self.finish(seat, place);
        }
    }
}

/// All rounds of a client. Answers how many calls were accepted.
fn serve(store: &Store<2>, client: usize, rounds: u64) -> u64 {
    let seat = client + 1;
    let key = format!("c{client}");
    for round in 1..=rounds {
        store.put(seat, key.as_bytes(), round.to_string().as_bytes());
        store.get(seat, key.as_bytes());
    }
    2 * rounds
}

/// The key of an object.
fn key_of(number: u64) -> String {
    format!("user{number}")
}

/// A value of so many bytes that no other operation writes.
fn fresh_value(thread: u64, number: u64, length: usize) -> Vec<u8> {
    let mut value = format!("t{thread}n{number}").into_bytes();
    value.resize(length.max(value.len()), b'a');
    value
}

/// The operations of one thread of a load, of which so many in a hundred are reads.
fn operate(store: &Store<3>, thread: u64, operations: u64, objects: u64, length: usize, reads: u64) {
    let mut word = thread.wrapping_mul(0x9E37_79B9_7F4A_7C15);
    let mut draw = move |below: u64| {
        word ^= word << 13;
        word ^= word >> 7;
        word ^= word << 17;
        word % below
    };
    for number in 0..operations {
        let (is_read, key) = (draw(100) < reads, key_of(draw(objects)));
        let begun = Instant::now();
        if is_read {
            store.get(thread as usize, key.as_bytes());
        } else {
            store.put(thread as usize, key.as_bytes(), &fresh_value(thread, number, length));
        }
        black_box(begun.elapsed());
    }
}

fn store<const REPLICAS: usize>(words: &[String], size: usize) -> Store<REPLICAS> {
    Store {
        master: Mutex::new(Master::new(size, 65)),
        answers_at_once: !words.iter().any(|word| word == "six"),
        tries: !words.iter().any(|word| word == "sleep"),
    }
}

fn load(words: &[String]) {
    let number = |at: usize| words[at].parse::<u64>().unwrap();
    let (threads, operations, objects, length) = (number(2), number(3), number(4), number(5) as usize);
    let reads = match words[1].as_str() {
        "A" => 50,
        "C" => 100,
        _ => 0,
    };
    let store: Store<3> = store(words, 262_144);
    for number in 0..objects {
        store.put(0, key_of(number).as_bytes(), &fresh_value(0, number, length));
    }
    let begun = Instant::now();
    thread::scope(|scope| {
        for thread in 1..=threads {
            let store = &store;
            scope.spawn(move || operate(store, thread, operations / threads, objects, length, reads));
        }
    });
    let per = operations as f64 / begun.elapsed().as_secs_f64();
    println!("{operations} operations by {threads} threads: {per:.0} a second");
}

fn main() {
    let words: Vec<String> = std::env::args().skip(1).collect();
    if words[0] == "load" {
        return load(&words);
    }
    let number = |at: usize| words[at].parse::<usize>().unwrap();
    let (clients, rounds) = (number(0), number(1));
    let store: Store<2> = store(&words, number(2));
    let calls: u64 = thread::scope(|scope| {
        let started: Vec<_> = (0..clients).map(|client| scope.spawn({
            let store = &store;
            move || serve(store, client, rounds as u64)
        })).collect();
        started.into_iter().map(|client| client.join().unwrap()).sum()
    });
    println!("clients {clients} {rounds} {calls}");
}
