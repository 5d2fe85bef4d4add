//! The program of `main.rattle` in plain Rust, over a table of states of the same structure. States stand in a slab, their
//! numbers in order, their places under hashes of the keys of either side, and their deadlines in a wheel of seconds with a
//! heap in front. It takes the same words and prints the same lines.

use std::cmp::Reverse;
use std::collections::BinaryHeap;
use std::io::Read;
use std::time::Instant;

const LIMIT: usize = 4_000_000_000;
const FIRST_DEADLINE: u64 = 1001;

#[derive(Clone, Copy, PartialEq, Eq)]
#[repr(C)]
struct Endpoint {
    address: u32,
    port: u16,
}

#[derive(Clone, Copy, PartialEq, Eq)]
#[repr(C)]
struct Key {
    protocol: u8,
    outside: Endpoint,
    inside: Endpoint,
}

#[derive(Clone, Copy)]
#[repr(C)]
struct StateRules {
    filter: Option<usize>,
    translation: Option<usize>,
    is_synchronised: bool,
    allows_options: bool,
}

#[derive(Clone, Copy)]
#[repr(C)]
struct TcpPeer {
    state: u8,
    low: u32,
    high: u32,
    greatest_window: u16,
    scale: Option<u8>,
}

#[allow(dead_code)]
#[derive(Clone, Copy)]
#[repr(C, u8)]
enum Peers {
    Tcp(TcpPeer, TcpPeer),
    Udp(u8, u8),
    Icmp,
    Other(u8, u8),
}

#[derive(Clone, Copy)]
#[repr(C)]
struct Traffic {
    packets: u64,
    bytes: u64,
}

/// A state, whose fields lie as Rattle lays them.
#[allow(dead_code)]
#[derive(Clone, Copy)]
#[repr(C)]
struct State {
    number: u64,
    deadline: u64,
    forth: Traffic,
    back: Traffic,
    rules: StateRules,
    wire: Key,
    stack: Key,
    peers: Peers,
    made: u32,
    direction: u8,
    timeout: u8,
}

#[derive(Clone, Copy)]
enum Side {
    Wire,
    Stack,
}

impl State {
    fn key_on(&self, side: Side) -> &Key {
        match side {
            Side::Wire => &self.wire,
            Side::Stack => &self.stack,
        }
    }

    fn is_like(&self, other: &State) -> bool {
        self.number == other.number && self.wire == other.wire && self.stack == other.stack
    }

    fn has_come(&self, clock: u32) -> bool {
        self.deadline <= u64::from(clock)
    }
}

fn hash_of(key: &Key) -> u32 {
    let beside = |high: u32, low: u32| u64::from(high) << 32 | u64::from(low);
    let ports = u32::from(key.outside.port) << 16 | u32::from(key.inside.port);
    let spread =
        beside(key.outside.address, key.inside.address).wrapping_mul(0x9e37_79b9_7f4a_7c15);
    let joined = spread
        .wrapping_add(spread >> 32)
        .wrapping_add(beside(u32::from(key.protocol), ports))
        .wrapping_mul(0xd1b5_4a32_d192_ed03);
    (joined >> 32) as u32
}

/// Stands for a place where nothing stood so far.
const FREE: u32 = u32::MAX;

/// Stands for a place where something stood and left.
const LEFT: u32 = u32::MAX - 1;

#[derive(Clone, Copy)]
struct Slot {
    hash: u32,
    place: u32,
}

/// Places by hashes of keys: slots in which they are looked for one after the other.
#[derive(Default)]
struct Index {
    slots: Vec<Slot>,
    held: usize,
    free: usize,
}

impl Index {
    fn home(&self, hash: u32) -> usize {
        (u64::from(hash) * self.slots.len() as u64 >> 32) as usize
    }

    /// The slot behind this one; there are a power of two.
    fn next(&self, at: usize) -> usize {
        (at + 1) & (self.slots.len() - 1)
    }

    fn find(&self, hash: u32, is_it: impl Fn(u32) -> bool) -> Option<u32> {
        if self.slots.is_empty() {
            return None;
        }
        let mut at = self.home(hash);
        loop {
            let slot = self.slots[at];
            if slot.place == FREE {
                return None;
            }
            if slot.hash == hash && slot.place != LEFT && is_it(slot.place) {
                return Some(slot.place);
            }
            at = self.next(at);
        }
    }

    fn insert(&mut self, hash: u32, place: u32) {
        let mut at = self.home(hash);
        while self.slots[at].place < LEFT {
            at = self.next(at);
        }
        self.free -= usize::from(self.slots[at].place == FREE);
        self.held += 1;
        self.slots[at] = Slot { hash, place };
    }

    fn remove(&mut self, hash: u32, place: u32) {
        let mut at = self.home(hash);
        while self.slots[at].place != place {
            if self.slots[at].place == FREE {
                return;
            }
            at = self.next(at);
        }
        self.held -= 1;
        self.slots[at].place = LEFT;
    }

    /// Makes room for one more.
    fn reserve(&mut self) {
        if self.free > self.slots.len() / 4 {
            return;
        }
        let count = ((self.held + 1) * 2).next_power_of_two().max(8);
        let free = Slot {
            hash: 0,
            place: FREE,
        };
        let before = std::mem::replace(&mut self.slots, vec![free; count]);
        self.held = 0;
        self.free = count;
        for slot in before {
            if slot.place < LEFT {
                self.insert(slot.hash, slot.place);
            }
        }
    }
}

/// A state, with the deadline by which it waits: not a later one than its own.
#[derive(Clone, Copy)]
struct Stored {
    state: State,
    waits: u64,
}

/// A deadline, the number of the state that waits by it, and where that one stands.
type Wait = (u64, u64, u32);

/// How many buckets there are.
const BUCKETS: u64 = 256;

/// Deadlines in buckets by their second. Those that have come are in the heap, and all others from the bound on.
#[derive(Default)]
struct Deadlines {
    near: BinaryHeap<Reverse<Wait>>,
    buckets: Vec<Vec<Reverse<Wait>>>,
    bound: u64,
    count: usize,
}

impl Deadlines {
    fn put(&mut self, wait: Wait) {
        if self.buckets.is_empty() {
            self.buckets.resize_with(BUCKETS as usize, Vec::new);
        }
        if wait.0 < self.bound {
            self.near.push(Reverse(wait));
        } else {
            self.buckets[(wait.0 % BUCKETS) as usize].push(Reverse(wait));
        }
    }

    fn add(&mut self, wait: Wait) {
        self.count += 1;
        self.put(wait);
    }

    /// Moves what has come into the heap, and the bound behind the clock.
    fn advance(&mut self, clock: u32) {
        let end = u64::from(clock) + 1;
        if end <= self.bound {
            return;
        }
        for ahead in 0..(end - self.bound).min(BUCKETS) {
            let Some(bucket) = self
                .buckets
                .get_mut(((self.bound + ahead) % BUCKETS) as usize)
            else {
                break;
            };
            let mut index = 0;
            while index < bucket.len() {
                let Reverse(wait) = bucket[index];
                if wait.0 < end {
                    self.near.push(bucket.swap_remove(index));
                } else {
                    index += 1;
                }
            }
        }
        self.bound = end;
    }

    /// The first below the bound.
    fn first(&self) -> Option<Wait> {
        let &Reverse(first) = self.near.peek()?;
        (first.0 < self.bound).then_some(first)
    }

    fn retain(&mut self, is_kept: impl Fn(Wait) -> bool) {
        self.near.retain(|wait| is_kept(wait.0));
        for bucket in &mut self.buckets {
            bucket.retain(|wait| is_kept(wait.0));
        }
        self.count = self.near.len() + self.buckets.iter().map(Vec::len).sum::<usize>();
    }

    fn iter(&self) -> impl Iterator<Item = Wait> + '_ {
        let turning = self.buckets.iter().flatten();
        self.near.iter().chain(turning).map(|wait| wait.0)
    }
}

#[derive(Default)]
struct Table {
    states: Vec<Option<Stored>>,
    vacant: Vec<u32>,
    /// Numbers in rising order with their places; one whose state is gone has none until the list is swept.
    order: Vec<(u64, Option<u32>)>,
    count: usize,
    wire: Index,
    stack: Index,
    deadlines: Deadlines,
    /// How many deadlines were left when those were dropped last by which no state waited.
    kept: usize,
    limit: usize,
}

fn get(states: &[Option<Stored>], place: u32) -> Option<&Stored> {
    states.get(place as usize)?.as_ref()
}

/// The state that waits by just this.
fn kept_by(states: &[Option<Stored>], wait: Wait) -> Option<&Stored> {
    get(states, wait.2).filter(|stored| stored.waits == wait.0 && stored.state.number == wait.1)
}

impl Table {
    fn new(limit: usize) -> Table {
        Table {
            limit,
            ..Table::default()
        }
    }

    fn index_on(&self, side: Side) -> &Index {
        match side {
            Side::Wire => &self.wire,
            Side::Stack => &self.stack,
        }
    }

    fn place_at(&self, side: Side, key: &Key) -> Option<u32> {
        self.index_on(side).find(hash_of(key), |place| {
            get(&self.states, place).is_some_and(|stored| stored.state.key_on(side) == key)
        })
    }

    fn at(&self, side: Side, key: &Key, clock: u32) -> Option<State> {
        let stored = get(&self.states, self.place_at(side, key)?)?;
        (!stored.state.has_come(clock)).then_some(stored.state)
    }

    /// Where a number stands in the order, or where it belongs.
    fn search(&self, number: u64) -> Result<usize, usize> {
        // new numbers are mostly the greatest so far
        if self.order.last().is_none_or(|last| last.0 < number) {
            return Err(self.order.len());
        }
        self.order.binary_search_by_key(&number, |entry| entry.0)
    }

    fn place_of(&self, number: u64) -> Option<u32> {
        self.order[self.search(number).ok()?].1
    }

    /// Drops the deadlines by which no state waits any more once they are many.
    fn sweep_deadlines(&mut self) {
        if self.deadlines.count / 2 > self.kept.max(self.count).max(64) {
            let states = &self.states;
            self.deadlines
                .retain(|wait| kept_by(states, wait).is_some());
            self.kept = self.deadlines.count;
        }
    }

    /// Drops the numbers whose states are gone once the list is full and at least half of it is gone.
    fn sweep_numbers(&mut self) {
        if self.order.len() == self.order.capacity() && self.count <= self.order.len() / 2 {
            self.order.retain(|entry| entry.1.is_some());
        }
    }

    fn add(&mut self, state: State) {
        self.sweep_deadlines();
        self.sweep_numbers();
        self.wire.reserve();
        self.stack.reserve();
        let waits = state.deadline;
        let stored = Some(Stored { state, waits });
        let place = match self.vacant.pop() {
            Some(place) => {
                self.states[place as usize] = stored;
                place
            }
            None => {
                self.states.push(stored);
                // so that a removal takes no memory
                self.vacant.reserve(self.states.len());
                (self.states.len() - 1) as u32
            }
        };
        match self.search(state.number) {
            Ok(at) => self.order[at].1 = Some(place),
            Err(at) => self.order.insert(at, (state.number, Some(place))),
        }
        self.count += 1;
        self.wire.insert(hash_of(&state.wire), place);
        self.stack.insert(hash_of(&state.stack), place);
        self.deadlines.add((waits, state.number, place));
    }

    /// Writes a state over the one at a place, which has other keys.
    fn replace(&mut self, place: u32, state: State) {
        let Some(before) = self.states[place as usize] else {
            return;
        };
        self.sweep_deadlines();
        self.wire.reserve();
        self.stack.reserve();
        self.wire.remove(hash_of(&before.state.wire), place);
        self.wire.insert(hash_of(&state.wire), place);
        self.stack.remove(hash_of(&before.state.stack), place);
        self.stack.insert(hash_of(&state.stack), place);
        let waits = state.deadline;
        self.states[place as usize] = Some(Stored { state, waits });
        self.deadlines.add((waits, state.number, place));
    }

    fn make(&mut self, state: State) -> bool {
        if self.place_at(Side::Wire, &state.wire).is_some()
            || self.place_at(Side::Stack, &state.stack).is_some()
            || self.count >= self.limit
        {
            return false;
        }
        match self.place_of(state.number) {
            Some(place) => self.replace(place, state),
            None => self.add(state),
        }
        true
    }

    fn touch(&mut self, state: State) -> bool {
        let wire = self.place_at(Side::Wire, &state.wire);
        if let Some(place) = wire {
            if let Some(Some(stored)) = self.states.get_mut(place as usize) {
                if stored.state.is_like(&state) {
                    stored.state = state;
                    if state.deadline < stored.waits {
                        stored.waits = state.deadline;
                        self.sweep_deadlines();
                        self.deadlines.add((state.deadline, state.number, place));
                    }
                    return true;
                }
            }
        }
        let own = self.place_of(state.number);
        let stack = self.place_at(Side::Stack, &state.stack);
        if wire.is_some() && wire != own || stack.is_some() && stack != own {
            return false;
        }
        if let Some(place) = own {
            self.replace(place, state);
        }
        true
    }

    fn remove(&mut self, number: u64) {
        let Ok(at) = self.search(number) else {
            return;
        };
        let Some(place) = self.order[at].1.take() else {
            return;
        };
        if let Some(stored) = self.states[place as usize].take() {
            self.wire.remove(hash_of(&stored.state.wire), place);
            self.stack.remove(hash_of(&stored.state.stack), place);
        }
        self.vacant.push(place);
        self.count -= 1;
    }

    /// Settles the deadlines that have come, so that `due` answers at once.
    fn settle(&mut self, clock: u32) {
        self.deadlines.advance(clock);
        while let Some(first) = self.deadlines.first() {
            if u64::from(clock) < first.0 {
                return;
            }
            let own = kept_by(&self.states, first).map(|stored| stored.state.deadline);
            if own == Some(first.0) {
                return;
            }
            self.deadlines.near.pop();
            let Some(own) = own else {
                self.deadlines.count -= 1;
                continue;
            };
            self.deadlines.put((own, first.1, first.2));
            if let Some(stored) = &mut self.states[first.2 as usize] {
                stored.waits = own;
            }
        }
    }

    /// Of the states whose deadline has come the one with the least deadline; of those the one with the least number.
    fn due(&self, clock: u32) -> Option<State> {
        let first = self.deadlines.first();
        let is_ahead = match first {
            Some(first) => u64::from(clock) < first.0,
            None => u64::from(clock) < self.deadlines.bound,
        };
        if is_ahead {
            return None;
        }
        let kept = |wait: Wait| kept_by(&self.states, wait).map(|stored| stored.state);
        first
            .and_then(|first| kept(first).filter(|state| state.deadline == first.0))
            .or_else(|| {
                let all = self.deadlines.iter().filter_map(kept);
                all.filter(|state| state.has_come(clock))
                    .min_by_key(|state| (state.deadline, state.number))
            })
    }

    fn purge(&mut self, clock: u32) {
        self.settle(clock);
        while let Some(state) = self.due(clock) {
            self.remove(state.number);
            self.settle(clock);
        }
    }
}

#[derive(Clone, Copy, Default)]
struct Count {
    nanoseconds: u64,
    successes: u64,
    sum: u64,
}

impl Count {
    fn success(&mut self, sum: u64) {
        self.successes += 1;
        self.sum = self.sum.wrapping_add(sum);
    }

    /// Takes the time of a call over where it is the longest so far.
    fn longest(&mut self, start: Instant) {
        self.nanoseconds = self.nanoseconds.max(start.elapsed().as_nanos() as u64);
    }
}

fn key_on(side: Side, index: u64) -> Key {
    let inside = match side {
        Side::Wire => 0xc000_0201,
        Side::Stack => 0x0a00_0005,
    };
    Key {
        protocol: 6,
        outside: Endpoint {
            address: index.wrapping_mul(2_654_435_761) as u32,
            port: 443,
        },
        inside: Endpoint {
            address: inside,
            port: (index % 60_000) as u16,
        },
    }
}

fn peer(low: u32) -> TcpPeer {
    TcpPeer {
        state: 4,
        low,
        high: low + 65535,
        greatest_window: 65535,
        scale: None,
    }
}

fn state(index: u64, clock: u64) -> State {
    State {
        number: index + 1,
        direction: 1,
        wire: key_on(Side::Wire, index),
        stack: key_on(Side::Stack, index),
        rules: StateRules {
            filter: Some(1),
            translation: None,
            is_synchronised: true,
            allows_options: false,
        },
        peers: Peers::Tcp(peer(1000), peer(5000)),
        made: 0,
        deadline: FIRST_DEADLINE + clock + index.wrapping_mul(40_503) / 16 % 1000,
        timeout: 2,
        forth: Traffic {
            packets: 1,
            bytes: 40,
        },
        back: Traffic {
            packets: 0,
            bytes: 0,
        },
    }
}

fn index_at(turn: u64, size: u64) -> u64 {
    turn.wrapping_mul(611_953) % size.max(1)
}

fn make(table: &mut Table, index: u64, count: &mut Count) {
    if table.make(state(index, 0)) {
        count.success(index);
    }
}

#[inline(always)]
fn find(table: &Table, first: u64, turn: u64, size: u64, count: &mut Count) {
    let side = if turn % 2 == 0 {
        Side::Wire
    } else {
        Side::Stack
    };
    let index = first + index_at(turn, size);
    if let Some(found) = table.at(side, &key_on(side, index), 0) {
        count.success(found.number ^ found.deadline ^ found.forth.bytes);
    }
}

fn touch(table: &mut Table, turn: u64, size: u64, count: &mut Count) {
    let index = index_at(turn, size);
    if table.touch(state(index, 1000)) {
        count.success(index);
    }
}

fn purge_all(table: &mut Table, count: &mut Count) {
    let before = table.count;
    for clock in 2000..3001 {
        table.purge(clock);
        count.sum += table.count as u64;
    }
    count.successes += (before - table.count) as u64;
}

fn hold(size: u64) {
    let mut table = Table::new(LIMIT);
    for turn in 0..size {
        make(&mut table, turn, &mut Count::default());
    }
    println!("{}", table.count);
    let _ = std::io::stdin().read(&mut [0]);
    println!("{}", table.count);
}

fn show(counts: [Count; 5]) {
    println!("{}", size_of::<State>());
    for count in counts {
        println!("{} {} {}", count.nanoseconds, count.successes, count.sum);
    }
}

fn measure_rounds(size: u64, rounds: u64) {
    let mut counts = [Count::default(); 5];
    for _ in 0..rounds {
        let mut table = Table::new(LIMIT);
        for (place, count) in counts.iter_mut().enumerate() {
            let start = Instant::now();
            match place {
                0 => (0..size).for_each(|turn| make(&mut table, turn, count)),
                1 => (0..size).for_each(|turn| find(&table, 0, turn, size, count)),
                2 => (0..size).for_each(|turn| find(&table, size, turn, size, count)),
                3 => (0..size).for_each(|turn| touch(&mut table, turn, size, count)),
                _ => purge_all(&mut table, count),
            }
            count.nanoseconds += start.elapsed().as_nanos() as u64;
        }
    }
    show(counts);
}

fn purge_each(table: &mut Table, count: &mut Count) {
    for clock in 1001..3001 {
        loop {
            let start = Instant::now();
            table.settle(clock);
            count.longest(start);
            let start = Instant::now();
            let due = table.due(clock);
            count.longest(start);
            let Some(state) = due else {
                break;
            };
            let start = Instant::now();
            table.remove(state.number);
            count.longest(start);
            count.success(state.number);
        }
    }
}

fn measure_calls(size: u64) {
    let mut counts = [Count::default(); 5];
    let mut table = Table::new(LIMIT);
    for (place, count) in counts[..4].iter_mut().enumerate() {
        for turn in 0..size {
            let start = Instant::now();
            match place {
                0 => make(&mut table, turn, count),
                1 => find(&table, 0, turn, size, count),
                2 => find(&table, size, turn, size, count),
                _ => touch(&mut table, turn, size, count),
            }
            count.longest(start);
        }
    }
    purge_each(&mut table, &mut counts[4]);
    show(counts);
}

fn main() {
    let words: Vec<String> = std::env::args().collect();
    let number = |place: usize| {
        words
            .get(place)
            .and_then(|word| word.parse().ok())
            .unwrap_or(0)
    };
    match words.get(1).map(String::as_str) {
        Some("hold") => hold(number(2)),
        Some("calls") => measure_calls(number(2)),
        _ => measure_rounds(number(2), number(3)),
    }
}
