//! The look-ups and stores of `benchmarks look_ups`, over maps of Rust's crates: the same questions, answers, order, threads and
//! rounds. It prints a line for each run: its map, its questions, its threads, how many look-ups come before each store
//! (0 where nothing is stored), how many look-ups found an answer, and its microseconds.
use dashmap::DashMap;
use lru::LruCache;
use std::collections::HashMap;
use std::sync::{Arc, Mutex, RwLock};
use std::thread;
use std::time::Instant;

const QUESTIONS: [(usize, usize); 3] = [(1_000, 64), (4_096, 64), (64, 1)];
const THREADS: [usize; 3] = [1, 2, 4];
const PER_STORE: [usize; 2] = [0, 100];
const LOOKUPS: usize = 64_000;
const ROUNDS: usize = 15;
const NOW: u64 = 100;

/// The owner of a question as octets, and its type.
#[derive(Clone, PartialEq, Eq, Hash)]
struct Key {
    owner: Vec<u8>,
    kind: u16,
}

struct Answer {
    #[allow(dead_code)]
    addresses: Vec<[u8; 4]>,
    life: u32,
}

/// An answer and the moment of its store.
#[derive(Clone)]
struct Stored {
    answer: Arc<Answer>,
    moment: u64,
}

impl Stored {
    fn alive(&self, now: u64) -> Option<Arc<Answer>> {
        self.lends(now).cloned()
    }

    fn lends(&self, now: u64) -> Option<&Arc<Answer>> {
        (now < self.moment + u64::from(self.answer.life)).then_some(&self.answer)
    }
}

/// A map that threads share.
trait Map: Sync {
    fn filled(known: &[(Key, Arc<Answer>)]) -> Self;
    fn find(&self, key: &Key, now: u64) -> Option<Arc<Answer>>;
    fn store(&self, key: &Key, stored: Stored);

    /// Whether an answer is found, by the map's way of handing it out.
    fn finds(&self, key: &Key, now: u64) -> bool {
        self.find(key, now).is_some()
    }
}

impl Map for DashMap<Key, Stored> {
    fn filled(known: &[(Key, Arc<Answer>)]) -> Self {
        pairs(known).collect()
    }
    fn find(&self, key: &Key, now: u64) -> Option<Arc<Answer>> {
        self.get(key)?.alive(now)
    }
    fn store(&self, key: &Key, stored: Stored) {
        self.insert(key.clone(), stored);
    }
}

impl Map for RwLock<HashMap<Key, Stored>> {
    fn filled(known: &[(Key, Arc<Answer>)]) -> Self {
        RwLock::new(pairs(known).collect())
    }
    fn find(&self, key: &Key, now: u64) -> Option<Arc<Answer>> {
        self.read().unwrap().get(key)?.alive(now)
    }
    fn store(&self, key: &Key, stored: Stored) {
        self.write().unwrap().insert(key.clone(), stored);
    }
}

impl Map for Mutex<LruCache<Key, Stored>> {
    fn filled(known: &[(Key, Arc<Answer>)]) -> Self {
        let mut map = LruCache::new(4_096);
        for (key, stored) in pairs(known) {
            map.put(key, stored);
        }
        Mutex::new(map)
    }
    fn find(&self, key: &Key, now: u64) -> Option<Arc<Answer>> {
        self.lock().unwrap().get(key)?.alive(now)
    }
    fn store(&self, key: &Key, stored: Stored) {
        self.lock().unwrap().put(key.clone(), stored);
    }
}

/// A map that is never written again, without any protocol: the limit.
struct Frozen(HashMap<Key, Stored>);

impl Map for Frozen {
    fn filled(known: &[(Key, Arc<Answer>)]) -> Self {
        Frozen(pairs(known).collect())
    }
    fn find(&self, key: &Key, now: u64) -> Option<Arc<Answer>> {
        self.0.get(key)?.alive(now)
    }
    fn store(&self, _: &Key, _: Stored) {}
}

/// The same, which lends what it finds.
struct Lending(Frozen);

impl Map for Lending {
    fn filled(known: &[(Key, Arc<Answer>)]) -> Self {
        Lending(Frozen::filled(known))
    }
    fn find(&self, key: &Key, now: u64) -> Option<Arc<Answer>> {
        self.0.find(key, now)
    }
    fn store(&self, _: &Key, _: Stored) {}
    fn finds(&self, key: &Key, now: u64) -> bool {
        self.0.0.get(key).is_some_and(|stored| stored.lends(now).is_some())
    }
}

fn pairs(known: &[(Key, Arc<Answer>)]) -> impl Iterator<Item = (Key, Stored)> + '_ {
    known.iter().map(|(key, answer)| {
        let answer = Arc::clone(answer);
        (key.clone(), Stored { answer, moment: NOW })
    })
}

/// The group of a question as the cache has it: FNV-1a, 32 bits, modulo 64.
fn group(key: &Key) -> usize {
    let octets = key.owner.iter().copied().chain(key.kind.to_be_bytes());
    let hash = octets.fold(2_166_136_261_u32, |hash, octet| (hash ^ u32::from(octet)).wrapping_mul(16_777_619));
    (hash % 64) as usize
}

fn key_of(number: u64) -> Key {
    let host = format!("host{number}");
    let mut owner = vec![host.len() as u8];
    owner.extend(host.bytes());
    owner.push(7);
    owner.extend(b"example");
    owner.push(0);
    Key { owner, kind: 1 }
}

fn known_of(count: usize, in_group: usize) -> Vec<(Key, Arc<Answer>)> {
    let mut counts = [0; 64];
    let mut known = Vec::new();
    for key in (0..).map(key_of) {
        if known.len() == count {
            break;
        }
        if counts[group(&key)] < in_group {
            counts[group(&key)] += 1;
            let addresses = vec![[192, 0, 2, 1]];
            known.push((key, Arc::new(Answer { addresses, life: 3_600 })));
        }
    }
    known
}

fn work(map: &impl Map, seat: usize, known: &[(Key, Arc<Answer>)], per_store: usize) -> u64 {
    let mut found = 0;
    let mut ahead = per_store;
    for number in seat * (LOOKUPS / 4)..seat * (LOOKUPS / 4) + LOOKUPS {
        let (key, answer) = &known[number.wrapping_mul(7_919) % known.len()];
        found += u64::from(map.finds(key, NOW));
        if ahead == 1 {
            let answer = Arc::clone(answer);
            map.store(key, Stored { answer, moment: NOW });
            ahead = per_store;
        } else {
            ahead = ahead.wrapping_sub(1);
        }
    }
    found
}

fn measure<M: Map>(name: &str, known: &[(Key, Arc<Answer>)], per_store: usize, threads: usize) {
    for _ in 0..ROUNDS {
        let map = M::filled(known);
        let start = Instant::now();
        let found: u64 = thread::scope(|scope| {
            let map = &map;
            let all: Vec<_> = (0..threads)
                .map(|seat| scope.spawn(move || work(map, seat, known, per_store)))
                .collect();
            all.into_iter().map(|it| it.join().unwrap()).sum()
        });
        let time = start.elapsed().as_micros();
        println!("{name} {} {threads} {per_store} {found} {time}", known.len());
    }
}

fn main() {
    for (count, in_group) in QUESTIONS {
        let known = known_of(count, in_group);
        for per_store in PER_STORE {
            for threads in THREADS {
                measure::<DashMap<_, _>>("dashmap", &known, per_store, threads);
                measure::<RwLock<HashMap<_, _>>>("rwlock_map", &known, per_store, threads);
                measure::<Mutex<LruCache<_, _>>>("mutex_lru", &known, per_store, threads);
                if per_store == 0 {
                    measure::<Frozen>("frozen_map", &known, per_store, threads);
                    measure::<Lending>("frozen_map_lent", &known, per_store, threads);
                }
            }
        }
    }
}
