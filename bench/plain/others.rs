// Runs a load over another store, as `workload` runs it over ours: a plain program without contracts.
//
//   others STORE SOCKET LOAD THREADS RECORDS OPERATIONS LENGTH SEED
//
// STORE is redis or memcached, behind this Unix socket, where each thread has a connection of its own and waits for each answer; or
// map, a HashMap of this process behind one lock, or sqlite, a table in memory of this process behind one lock, each call a
// transaction of its own. The last is there if the program is built with `--cfg sqlite`. LOAD is A, B or C. It prints the lines that
// `workload` prints.

use std::collections::HashMap;
use std::env::args;
use std::io::{BufRead, BufReader, Read, Result, Write};
use std::os::unix::net::UnixStream;
use std::sync::{Arc, Mutex};
use std::thread;
use std::time::Instant;

struct Words(u64);

fn mixed(word: u64) -> u64 {
    let once = (word ^ (word >> 30)).wrapping_mul(0xbf58476d1ce4e5b9);
    let twice = (once ^ (once >> 27)).wrapping_mul(0x94d049bb133111eb);
    twice ^ (twice >> 31)
}

impl Words {
    fn word(&mut self) -> u64 {
        self.0 = self.0.wrapping_add(0x9e3779b97f4a7c15);
        mixed(self.0)
    }
}

/// The running sums of 1 / rank^0.99.
fn zipf(records: u64) -> Vec<f64> {
    let mut total = 0.0;
    (1..=records).map(|rank| { total += (rank as f64).powf(-0.99); total }).collect()
}

fn draw(words: &mut Words, sums: &[f64]) -> u64 {
    let number = (words.word() >> 11) as f64 / (1u64 << 53) as f64 * sums[sums.len() - 1];
    let rank = sums.partition_point(|sum| *sum <= number).min(sums.len() - 1);
    mixed(rank as u64) % sums.len() as u64
}

fn value_of(thread: u64, count: u64, length: usize) -> Vec<u8> {
    let mut value = format!("t{thread}n{count}").into_bytes();
    let letters = b"abcdefghijklmnopqrstuvwxyz0123456789ABCDEFGHIJKLMNOPQRSTUVWXYZab";
    let mut at = 0;
    while value.len() < length {
        value.push(letters[at % 64]);
        at += 1;
    }
    value
}

/// What a thread calls.
trait Calls {
    fn put(&mut self, key: u64, value: &[u8]) -> Result<()>;

    /// It fails if there is no object.
    fn get(&mut self, key: u64) -> Result<()>;
}

/// What all threads have together.
enum Shared {
    Socket { is_redis: bool, path: String },
    Map(Arc<Mutex<HashMap<String, Vec<u8>>>>),
    #[cfg(sqlite)]
    Sqlite(Arc<Mutex<sqlite::Table>>),
}

impl Shared {
    fn new(store: &str, path: &str) -> Shared {
        match store {
            "map" => Shared::Map(Arc::new(Mutex::new(HashMap::new()))),
            #[cfg(sqlite)]
            "sqlite" => Shared::Sqlite(Arc::new(Mutex::new(sqlite::Table::new()))),
            "redis" | "memcached" => Shared::Socket { is_redis: store == "redis", path: path.to_string() },
            _ => panic!("there is no store {store}"),
        }
    }

    fn client(&self) -> Result<Box<dyn Calls>> {
        Ok(match self {
            Shared::Socket { is_redis, path } => Box::new(Client::new(*is_redis, path)?),
            Shared::Map(map) => Box::new(map.clone()),
            #[cfg(sqlite)]
            Shared::Sqlite(table) => Box::new(table.clone()),
        })
    }
}

impl Calls for Arc<Mutex<HashMap<String, Vec<u8>>>> {
    fn put(&mut self, key: u64, value: &[u8]) -> Result<()> {
        self.lock().expect("a lock").insert(format!("user{key}"), value.to_vec());
        Ok(())
    }

    fn get(&mut self, key: u64) -> Result<()> {
        let found = self.lock().expect("a lock").get(&format!("user{key}")).cloned();
        found.map(|_| ()).ok_or_else(|| std::io::ErrorKind::NotFound.into())
    }
}

#[cfg(sqlite)]
mod sqlite {
    use super::Calls;
    use std::ffi::{c_char, c_int, c_void, CString};
    use std::io::{ErrorKind, Result};
    use std::ptr::{null, null_mut};
    use std::sync::{Arc, Mutex};

    #[link(name = "sqlite3")]
    extern "C" {
        fn sqlite3_open(name: *const c_char, base: *mut *mut c_void) -> c_int;
        fn sqlite3_exec(base: *mut c_void, text: *const c_char, call: *const c_void, with: *const c_void, error: *mut *mut c_char)
            -> c_int;
        fn sqlite3_prepare_v2(base: *mut c_void, text: *const c_char, length: c_int, made: *mut *mut c_void, rest: *mut *const c_char)
            -> c_int;
        fn sqlite3_bind_blob(made: *mut c_void, at: c_int, bytes: *const u8, length: c_int, free: *const c_void) -> c_int;
        fn sqlite3_step(made: *mut c_void) -> c_int;
        fn sqlite3_reset(made: *mut c_void) -> c_int;
        fn sqlite3_column_blob(made: *mut c_void, at: c_int) -> *const u8;
        fn sqlite3_column_bytes(made: *mut c_void, at: c_int) -> c_int;
    }

    const ROW: c_int = 100;
    const DONE: c_int = 101;

    /// A table in memory, with its two statements. One thread at a time calls it.
    pub struct Table {
        put: *mut c_void,
        get: *mut c_void,
    }

    unsafe impl Send for Table {}

    impl Table {
        pub fn new() -> Table {
            let text = |words: &str| CString::new(words).expect("no zero byte");
            let (mut base, mut put, mut get) = (null_mut(), null_mut(), null_mut());
            unsafe {
                assert_eq!(sqlite3_open(text(":memory:").as_ptr(), &mut base), 0);
                let made = text("create table held (key blob primary key, value blob) without rowid");
                assert_eq!(sqlite3_exec(base, made.as_ptr(), null(), null(), null_mut()), 0);
                let words = text("insert into held values (?1, ?2) on conflict (key) do update set value = ?2");
                assert_eq!(sqlite3_prepare_v2(base, words.as_ptr(), -1, &mut put, null_mut()), 0);
                let words = text("select value from held where key = ?1");
                assert_eq!(sqlite3_prepare_v2(base, words.as_ptr(), -1, &mut get, null_mut()), 0);
            }
            Table { put, get }
        }
    }

    impl Calls for Arc<Mutex<Table>> {
        fn put(&mut self, key: u64, value: &[u8]) -> Result<()> {
            let (key, table) = (format!("user{key}"), self.lock().expect("a lock"));
            unsafe {
                sqlite3_bind_blob(table.put, 1, key.as_ptr(), key.len() as c_int, null());
                sqlite3_bind_blob(table.put, 2, value.as_ptr(), value.len() as c_int, null());
                let said = sqlite3_step(table.put);
                sqlite3_reset(table.put);
                if said == DONE { Ok(()) } else { Err(ErrorKind::Other.into()) }
            }
        }

        fn get(&mut self, key: u64) -> Result<()> {
            let (key, table) = (format!("user{key}"), self.lock().expect("a lock"));
            unsafe {
                sqlite3_bind_blob(table.get, 1, key.as_ptr(), key.len() as c_int, null());
                let is_there = sqlite3_step(table.get) == ROW;
                if is_there {
                    let length = sqlite3_column_bytes(table.get, 0) as usize;
                    drop(std::slice::from_raw_parts(sqlite3_column_blob(table.get, 0), length).to_vec());
                }
                sqlite3_reset(table.get);
                if is_there { Ok(()) } else { Err(ErrorKind::NotFound.into()) }
            }
        }
    }
}

/// A connection to a server.
struct Client {
    is_redis: bool,
    reader: BufReader<UnixStream>,
    writer: UnixStream,
    line: Vec<u8>,
}

impl Client {
    fn new(is_redis: bool, socket: &str) -> Result<Client> {
        let writer = UnixStream::connect(socket)?;
        let reader = BufReader::new(writer.try_clone()?);
        Ok(Client { is_redis, reader, writer, line: Vec::new() })
    }

    fn read_line(&mut self) -> Result<()> {
        self.line.clear();
        self.reader.read_until(b'\n', &mut self.line)?;
        Ok(())
    }

    fn skip(&mut self, count: usize) -> Result<()> {
        let mut rest = vec![0; count];
        self.reader.read_exact(&mut rest)
    }
}

impl Calls for Client {
    fn put(&mut self, key: u64, value: &[u8]) -> Result<()> {
        let key = format!("user{key}");
        let mut text = if self.is_redis {
            format!("*3\r\n$3\r\nSET\r\n${}\r\n{key}\r\n${}\r\n", key.len(), value.len())
        } else {
            format!("set {key} 0 0 {}\r\n", value.len())
        }.into_bytes();
        text.extend_from_slice(value);
        text.extend_from_slice(b"\r\n");
        self.writer.write_all(&text)?;
        self.read_line()?;
        assert!(self.line == if self.is_redis { b"+OK\r\n".to_vec() } else { b"STORED\r\n".to_vec() });
        Ok(())
    }

    fn get(&mut self, key: u64) -> Result<()> {
        let key = format!("user{key}");
        let text = if self.is_redis {
            format!("*2\r\n$3\r\nGET\r\n${}\r\n{key}\r\n", key.len())
        } else {
            format!("get {key}\r\n")
        };
        self.writer.write_all(text.as_bytes())?;
        self.read_line()?;
        let line = String::from_utf8_lossy(&self.line).trim_end().to_string();
        let count: usize = line.rsplit(|c| c == ' ' || c == '$').next().and_then(|word| word.parse().ok()).expect("an object");
        self.skip(count + 2)?;
        if !self.is_redis {
            self.read_line()?;
        }
        Ok(())
    }
}

fn say_speed(count: u64, what: &str, threads: u64, took: u128) {
    let per = count as u128 * 1_000_000_000 / took.max(1);
    println!("{count} {what} by {threads} threads in {} microseconds: {per} a second", took / 1000);
}

fn say_latencies(what: &str, times: &mut [u64]) {
    times.sort_unstable();
    let at = |part: usize| if times.is_empty() { 0 } else { times[(times.len() * part / 10_000).min(times.len() - 1)] };
    let last = times.last().copied().unwrap_or(0);
    println!("{what}: {} calls, 50 % {}, 95 % {}, 99 % {}, 99.9 % {}, greatest {last} ns",
             times.len(), at(5000), at(9500), at(9900), at(9990));
}

fn main() -> Result<()> {
    let words: Vec<String> = args().skip(1).collect();
    let number = |at: usize| -> u64 { words[at].parse().expect("a number") };
    let (store, socket, threads, records) = (words[0].clone(), words[1].clone(), number(3), number(4));
    let (operations, length, seed) = (number(5) / threads, number(6) as usize, number(7));
    let reads = match words[2].as_str() { "A" => 50, "B" => 95, "C" => 100, _ => panic!("load A, B or C") };
    let shared = Shared::new(&store, &socket);
    let mut first = shared.client()?;
    let begun = Instant::now();
    for key in 0..records {
        first.put(key, &value_of(0, key, length))?;
    }
    say_speed(records, "puts of new keys", 1, begun.elapsed().as_nanos());
    let sums = zipf(records);
    let begun = Instant::now();
    let all: Vec<(Vec<u64>, Vec<u64>)> = thread::scope(|scope| {
        let (shared, sums) = (&shared, &sums);
        let started: Vec<_> = (1..=threads).map(|thread| scope.spawn(move || {
            let mut client = shared.client().expect("a connection");
            let mut words = Words(mixed(seed + thread));
            let mut times = (Vec::new(), Vec::new());
            for count in 0..operations {
                let is_read = words.word() % 100 < reads;
                let key = draw(&mut words, sums);
                let value = if is_read { Vec::new() } else { value_of(thread, count, length) };
                let start = Instant::now();
                if is_read { client.get(key).expect("a get") } else { client.put(key, &value).expect("a put") }
                let took = start.elapsed().as_nanos() as u64;
                if is_read { times.0.push(took) } else { times.1.push(took) }
            }
            times
        })).collect();
        started.into_iter().map(|one| one.join().expect("a thread")).collect()
    });
    say_speed(operations * threads, "operations", threads, begun.elapsed().as_nanos());
    let (mut reads, mut updates) = (Vec::new(), Vec::new());
    for (some, others) in all {
        reads.extend(some);
        updates.extend(others);
    }
    say_latencies("reads", &mut reads);
    say_latencies("updates", &mut updates);
    Ok(())
}
