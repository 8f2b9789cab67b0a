//! The twin of `work memory stores`: the same rounds over a `VecDeque` of the standard library.
//!
//! A packet has the same fields and its data on the heap, and a look-up is the same binary search.

use std::collections::VecDeque;
use std::env;
use std::time::{Duration, Instant};

const SIZE: usize = 10_000;
const DATA: [u8; 16] = [7; 16];
const BLOCK: usize = 1024;

#[derive(Clone, Copy)]
#[allow(dead_code)]
struct Header {
    apid: u16,
    count: u16,
    low: u8,
    service: u8,
    subtype: u8,
}

#[derive(Clone, Copy)]
#[allow(dead_code)]
enum PacketType {
    Telecommand {
        source: u16,
    },
    Telemetry {
        counter: u16,
        destination: u16,
        time: u64,
    },
}

#[allow(dead_code)]
struct Packet {
    header: Header,
    kind: PacketType,
    body: Vec<u8>,
}

impl Packet {
    fn spelled_len(&self) -> usize {
        let secondary = match self.kind {
            PacketType::Telecommand { .. } => 5,
            PacketType::Telemetry { .. } => 15,
        };
        6 + secondary + self.body.len()
    }
}

struct Stored {
    time: u64,
    packet: Packet,
}

#[allow(dead_code)]
enum Put {
    Kept(u64),
    KeptOver(u64, Packet),
    Lost(Packet),
    ClockEnd(Packet),
}

#[derive(Clone, Copy, PartialEq)]
enum Kind {
    Circular,
    Bounded,
}

struct Store {
    kind: Kind,
    size: usize,
    last: u64,
    held: VecDeque<Stored>,
}

impl Store {
    fn put(&mut self, now: u64, packet: Packet) -> Put {
        if self.last == u64::MAX {
            return Put::ClockEnd(packet);
        }
        let full = self.held.len() == self.size;
        if full && self.kind == Kind::Bounded {
            return Put::Lost(packet);
        }
        let time = now.max(self.last + 1);
        self.last = time;
        let oldest = if full { self.held.pop_front() } else { None };
        self.held.push_back(Stored { time, packet });
        match oldest {
            None => Put::Kept(time),
            Some(oldest) => Put::KeptOver(time, oldest.packet),
        }
    }

    fn first_in(&self, from: u64, to: u64, after: u64) -> Option<(u64, &Packet)> {
        let passed = from.saturating_sub(1).max(after);
        let place = match self.held.front() {
            Some(oldest) if passed < oldest.time => 0,
            _ => self.held.partition_point(|stored| stored.time <= passed),
        };
        let stored = self.held.get(place)?;
        (stored.time <= to).then_some((stored.time, &stored.packet))
    }

    fn delete_up_to(&mut self, limit: u64) -> usize {
        let held = self.held.len();
        while self.held.front().is_some_and(|oldest| oldest.time <= limit) {
            self.held.pop_front();
        }
        held - self.held.len()
    }
}

fn packet(count: u16) -> Packet {
    let header = Header {
        apid: 100,
        count: count % 16384,
        low: 0,
        service: 3,
        subtype: 25,
    };
    let kind = PacketType::Telemetry {
        counter: 0,
        destination: 0,
        time: 0,
    };
    Packet {
        header,
        kind,
        body: DATA.to_vec(),
    }
}

fn fill(store: &mut Store) {
    for number in 0..SIZE {
        let packet = packet(number as u16);
        assert!(packet.spelled_len() <= BLOCK);
        drop(store.put(0, packet));
    }
}

fn read(store: &Store) -> u64 {
    let mut sum: u64 = 0;
    let mut after = 0;
    for _ in 0..SIZE {
        if let Some((time, packet)) = store.first_in(0, u64::MAX, after) {
            sum = sum.wrapping_add(u64::from(packet.header.count) + packet.body.len() as u64);
            after = time;
        }
    }
    sum
}

fn main() {
    let words: Vec<String> = env::args().skip(1).collect();
    let kind = if words[0] == "circular" {
        Kind::Circular
    } else {
        Kind::Bounded
    };
    let rounds: u32 = words[1].parse().expect("a number of rounds");
    let mut store = Store {
        kind,
        size: SIZE,
        last: 0,
        held: VecDeque::with_capacity(SIZE),
    };
    let mut parts = [Duration::ZERO; 3];
    let mut sum: u64 = 0;
    for _ in 0..rounds {
        let start = Instant::now();
        fill(&mut store);
        parts[0] += start.elapsed();
        let start = Instant::now();
        sum = sum.wrapping_add(read(&store));
        parts[1] += start.elapsed();
        let start = Instant::now();
        store.delete_up_to(u64::MAX);
        parts[2] += start.elapsed();
    }
    let [put, read, delete] = parts.map(|part| part.as_secs_f64());
    println!("put {put:.9} read {read:.9} delete {delete:.9} sum {sum}");
}
