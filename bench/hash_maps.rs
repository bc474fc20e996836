//! The loops of `bench/fdb.patch` over Rust's own `HashMap`, with its default hasher (SipHash) and with the hash of
//! `open_addressing`, and over the same open addressing by hand:
//! `rustc -C opt-level=3 -C target-cpu=x86-64-v2 bench/hash_maps.rs -o /tmp/hash_maps && /tmp/hash_maps`
use std::collections::HashMap;
use std::hash::{BuildHasher, BuildHasherDefault, Hasher, RandomState};
use std::time::Instant;

#[derive(Clone, Copy, Default)]
struct Entry {
    port: u8,
    #[allow(dead_code)]
    kind: u8,
    updated: u64,
}

const ROOM: usize = 16384;
const FINDS: u64 = 1_000_000;
const CHANGES: u64 = 200_000;
const ROUNDS: u64 = 15;

fn mixed(key: u64) -> u64 {
    let a = key.wrapping_mul(0xff51afd7ed558ccd);
    (a ^ (a >> 32)).wrapping_mul(0xc4ceb9fe1a85ec53)
}

/// The hash of `open_addressing`. `HashMap` takes its place from the low bits and its tag from the high ones.
#[derive(Default)]
struct Mixer(u64);

impl Hasher for Mixer {
    fn finish(&self) -> u64 {
        self.0
    }
    fn write(&mut self, _: &[u8]) {
        unreachable!()
    }
    fn write_u64(&mut self, key: u64) {
        self.0 = mixed(key).swap_bytes();
    }
}

trait Map {
    fn make() -> Self;
    fn find(&self, key: u64) -> Option<Entry>;
    fn put(&mut self, key: u64, entry: Entry);
    fn take(&mut self, key: u64) -> Option<Entry>;
    fn len(&self) -> usize;
}

impl<S: BuildHasher + Default> Map for HashMap<u64, Entry, S> {
    fn make() -> Self {
        HashMap::with_capacity_and_hasher(ROOM, S::default())
    }
    fn find(&self, key: u64) -> Option<Entry> {
        self.get(&key).copied()
    }
    fn put(&mut self, key: u64, entry: Entry) {
        self.insert(key, entry);
    }
    fn take(&mut self, key: u64) -> Option<Entry> {
        self.remove(&key)
    }
    fn len(&self) -> usize {
        HashMap::len(self)
    }
}

/// Keys in an array of their own, a search from the home on, and a gap that is closed.
struct ByHand {
    keys: Vec<u64>,
    values: Vec<Entry>,
    bits: u32,
    used: usize,
}

impl ByHand {
    fn home(&self, key: u64) -> usize {
        (mixed(key) >> (64 - self.bits)) as usize
    }
    fn mask(&self) -> usize {
        (1 << self.bits) - 1
    }
    fn search(&self, key: u64) -> Result<usize, usize> {
        let mut place = self.home(key);
        loop {
            let there = self.keys[place];
            if there == key {
                return Ok(place);
            }
            if there == 0 {
                return Err(place);
            }
            place = (place + 1) & self.mask();
        }
    }
}

impl Map for ByHand {
    fn make() -> Self {
        let bits = (3 * ROOM + 1).ilog2() + 1;
        ByHand { keys: vec![0; 1 << bits], values: vec![Entry::default(); 1 << bits], bits, used: 0 }
    }
    fn find(&self, key: u64) -> Option<Entry> {
        self.search(key).ok().map(|place| self.values[place])
    }
    fn put(&mut self, key: u64, entry: Entry) {
        let place = match self.search(key) {
            Ok(place) => place,
            Err(place) => {
                self.used += 1;
                place
            }
        };
        self.keys[place] = key;
        self.values[place] = entry;
    }
    fn take(&mut self, key: u64) -> Option<Entry> {
        let mut gap = self.search(key).ok()?;
        let entry = self.values[gap];
        let mut place = gap;
        loop {
            place = (place + 1) & self.mask();
            let there = self.keys[place];
            if there == 0 {
                break;
            }
            let far = place.wrapping_sub(self.home(there)) & self.mask();
            if far >= place.wrapping_sub(gap) & self.mask() {
                self.keys[gap] = there;
                self.values[gap] = self.values[place];
                gap = place;
            }
        }
        self.keys[gap] = 0;
        self.used -= 1;
        Some(entry)
    }
    fn len(&self) -> usize {
        self.used
    }
}

fn next(state: u64) -> u64 {
    state.wrapping_mul(6364136223846793005).wrapping_add(1442695040888963407)
}

/// The number of an address, 02:00 and four bytes, in a VLAN.
fn key(vid: u64, number: u64) -> u64 {
    vid << 48 | 2 << 40 | (number & 0xffff_ffff)
}

/// The address of a place in a row a stride apart, or one that looks like chance where the stride is 0.
fn address(vid: u64, stride: u64, place: u64, state: u64) -> u64 {
    if stride == 0 { key(vid, state >> 33) } else { key(vid, place.wrapping_mul(stride)) }
}

fn fill<M: Map>(map: &mut M, stride: u64) -> Vec<u64> {
    let mut keys = Vec::new();
    let mut state = 1;
    for place in 0..2 * ROOM as u64 {
        state = next(state);
        let key = address(1, stride, place, state);
        if map.len() < ROOM && map.find(key).is_none() {
            map.put(key, Entry { port: 0, kind: 2, updated: 0 });
            keys.push(key);
        }
    }
    keys
}

fn find_present<M: Map>(map: &M, keys: &[u64]) -> u64 {
    let mut state = 2;
    let mut sum = 0u64;
    for _ in 0..FINDS {
        state = next(state);
        if let Some(entry) = map.find(keys[(state >> 33) as usize % ROOM]) {
            sum = sum.wrapping_add(u64::from(entry.port)).wrapping_add(entry.updated);
        }
    }
    sum
}

fn find_absent<M: Map>(map: &M, stride: u64) -> u64 {
    let mut state = 3;
    let mut missed = 0;
    for _ in 0..FINDS {
        state = next(state);
        if map.find(address(2, stride, (state >> 33) % ROOM as u64, state)).is_none() {
            missed += 1;
        }
    }
    missed
}

fn change<M: Map>(map: &mut M, keys: &mut [u64], stride: u64, round: u64) -> u64 {
    let mut state = 4 + round;
    let mut taken = 0;
    for moment in round * CHANGES..(round + 1) * CHANGES {
        state = next(state);
        let place = (state >> 33) as usize % ROOM;
        if map.take(keys[place]).is_some() {
            taken += 1;
        }
        state = next(state);
        let key = address(1, stride, moment + ROOM as u64, state);
        map.put(key, Entry { port: 0, kind: 2, updated: moment });
        keys[place] = key;
    }
    taken
}

/// The least times of the loops, in nanoseconds a call.
struct Times<M> {
    name: &'static str,
    map: M,
    keys: Vec<u64>,
    least: [f64; 3],
    sum: u64,
}

impl<M: Map> Times<M> {
    fn make(name: &'static str, stride: u64) -> Self {
        let mut map = M::make();
        let keys = fill(&mut map, stride);
        Times { name, map, keys, least: [f64::MAX; 3], sum: 0 }
    }
    fn round(&mut self, stride: u64, round: u64) {
        let mut took = [0.0; 3];
        let start = Instant::now();
        let found = find_present(&self.map, &self.keys);
        took[0] = start.elapsed().as_nanos() as f64 / FINDS as f64;
        let start = Instant::now();
        let missed = find_absent(&self.map, stride);
        took[1] = start.elapsed().as_nanos() as f64 / FINDS as f64;
        let start = Instant::now();
        let taken = change(&mut self.map, &mut self.keys, stride, round);
        took[2] = start.elapsed().as_nanos() as f64 / CHANGES as f64;
        for (least, took) in self.least.iter_mut().zip(took) {
            *least = least.min(took);
        }
        self.sum = self.sum.wrapping_add(found).wrapping_add(missed).wrapping_add(taken);
    }
    fn tell(&self) {
        let [present, absent, changes] = self.least;
        println!("  {}: present {present:.1} absent {absent:.1} take and put {changes:.1} ns (sum {})", self.name, self.sum);
    }
}

fn main() {
    for stride in [0, 144, 17_711, 46_368] {
        let mut sip: Times<HashMap<u64, Entry, RandomState>> = Times::make("HashMap, SipHash", stride);
        let mut same: Times<HashMap<u64, Entry, BuildHasherDefault<Mixer>>> = Times::make("HashMap, the same hash", stride);
        let mut hand: Times<ByHand> = Times::make("the same cells by hand", stride);
        for round in 0..ROUNDS {
            sip.round(stride, round);
            same.round(stride, round);
            hand.round(stride, round);
        }
        println!("stride {stride} (0: chance)");
        sip.tell();
        same.tell();
        hand.tell();
    }
}
