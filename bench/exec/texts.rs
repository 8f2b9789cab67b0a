//! The twin of `mm_tool run` in plain Rust: it reads a setup, a forecast, a plan, sources and links, carries the plan out and prints the
//! same report.
//!
//! It reads what a benchmark wrote, so it has no words for a fault: it panics. Stores are circular, none holds anything before step 1, and
//! no send fails.

use crate::{dump, record, Link, Order, Packet, Row, State, Store, StoreId};
use std::collections::VecDeque;
use std::fmt::Write;
use std::fs;
use std::str::FromStr;
use std::sync::{Arc, Mutex};

/// The most octets of a packet.
const BLOCK: usize = 1024;

/// Stores in their order, and the sorted routes.
struct Setup {
    stores: Vec<(String, usize)>,
    rows: Vec<Row>,
}

/// What a step has of the forecast.
struct Step {
    window: u64,
    arrivals: Vec<u64>,
}

fn number<T: FromStr>(text: &str) -> T {
    text.parse().ok().expect("a number")
}

fn id_of(name: &str) -> StoreId {
    let mut id = [b' '; 8];
    id[..name.len()].copy_from_slice(name.as_bytes());
    id
}

/// The values of a table's keys, in the order in which they stand.
fn values(table: &str) -> Vec<&str> {
    table.lines().filter_map(|line| line.split_once(" = ")).map(|(_, value)| value.trim_matches('"')).collect()
}

fn read_setup(text: &str) -> Setup {
    let mut setup = Setup { stores: Vec::new(), rows: Vec::new() };
    for table in text.split("[[").skip(1) {
        let values = values(table);
        match (table.split_once("]]").expect("a table").0, &values[..]) {
            ("store", [id, size, ..]) => setup.stores.push((id.to_string(), number(size))),
            ("route", [apid, service, subtype, store]) => setup.rows.push(Row {
                apid: number(apid),
                service: number(service),
                subtype: number(subtype),
                store: id_of(store),
            }),
            _ => panic!("a store or a route"),
        }
    }
    setup.rows.sort();
    setup
}

fn read_forecast(text: &str) -> Vec<Step> {
    let step = |line: &str| {
        let mut cells = line.split(',').skip(1);
        Step { window: number(cells.next().expect("a window")), arrivals: cells.map(number).collect() }
    };
    text.lines().skip(1).map(step).collect()
}

/// The amounts of each step.
fn read_plan(text: &str) -> Vec<Vec<u64>> {
    let dumps = text.lines().filter_map(|line| line.strip_prefix("dump "));
    dumps.map(|line| line.split(' ').skip(1).map(number).collect()).collect()
}

/// The value of a hexadecimal digit of either case.
fn digit(digit: u8) -> u8 {
    match digit {
        b'0'..=b'9' => digit - b'0',
        b'A'..=b'F' => digit - b'A' + 10,
        b'a'..=b'f' => digit - b'a' + 10,
        _ => panic!("a digit"),
    }
}

/// Telemetry with an unsegmented header, and nothing after it.
fn read_packet(digits: &[u8]) -> Packet {
    let mut buffer = [0; BLOCK];
    let (pairs, rest) = digits.as_chunks::<2>();
    assert!(rest.is_empty() && pairs.len() <= BLOCK, "octets of a block");
    for (octet, [high, low]) in buffer.iter_mut().zip(pairs) {
        *octet = digit(*high) << 4 | digit(*low);
    }
    let octets = &buffer[..pairs.len()];
    let pair = |at: usize| u16::from_be_bytes([octets[at], octets[at + 1]]);
    assert!(pair(0) >> 11 == 1 && pair(0) & 0x7FF < 0x7FF && pair(2) >> 14 == 3 && octets[6] >> 4 == 2, "telemetry");
    assert!(usize::from(pair(4)) + 7 == octets.len(), "the length");
    Packet {
        apid: pair(0) & 0x7FF,
        count: pair(2) & 0x3FFF,
        service: octets[7],
        subtype: octets[8],
        time: u64::from_be_bytes(octets[13..21].try_into().expect("8 octets")),
        body: Arc::new(octets[21..].to_vec()),
    }
}

/// The packets of each step, and in it of each source.
fn read_sources(text: &str, steps: usize) -> Vec<Vec<VecDeque<Packet>>> {
    let mut given: Vec<Vec<VecDeque<Packet>>> = (0..=steps).map(|_| Vec::new()).collect();
    let mut many = 0;
    for line in text.lines() {
        let mut words = line.split(' ');
        let [source, step, digits] = [(); 3].map(|()| words.next().expect("three words"));
        let (source, step): (usize, usize) = (number(source), number(step));
        many = many.max(source);
        let sources = &mut given[step];
        if sources.len() < source {
            sources.resize_with(source, VecDeque::new);
        }
        sources[source - 1].push_back(read_packet(digits.as_bytes()));
    }
    given.iter_mut().for_each(|sources| sources.resize_with(many, VecDeque::new));
    given
}

/// As many links as the first line says. No line says that a send fails.
fn read_links(text: &str) -> Vec<Link> {
    let many = text.strip_prefix("links ").and_then(|rest| rest.strip_suffix('\n')).expect("one line");
    (0..number(many)).map(|_| Link::default()).collect()
}

/// What a store counted: packets offered, lost and deleted, and how many it holds.
#[derive(Clone, Copy, Default)]
struct Counters([u64; 4]);

impl Counters {
    fn of(store: &Store) -> Counters {
        let state = store.state.lock().unwrap();
        Counters([state.offered, state.lost, state.deleted, state.held.len() as u64])
    }
}

/// The run of a plan, with what its report says.
struct Run {
    setup: Setup,
    stores: Vec<Store>,
    links: Vec<Link>,
    before: Vec<Counters>,
    totals: [u64; 3],
    rows: String,
    differs: String,
}

impl Run {
    fn new(setup: Setup, links: Vec<Link>) -> Run {
        let store = |(id, size): &(String, usize)| Store { id: id_of(id), state: Mutex::new(State::new(*size)) };
        let stores: Vec<Store> = setup.stores.iter().map(store).collect();
        let before = vec![Counters::default(); stores.len()];
        Run { setup, stores, links, before, totals: [0; 3], rows: String::new(), differs: String::new() }
    }

    fn step(&mut self, number: usize, step: &Step, amounts: &[u64], given: &mut [VecDeque<Packet>]) {
        assert!(amounts.iter().sum::<u64>() <= step.window, "the plan fits");
        record(&self.stores, &self.setup.rows, number as u64, given);
        let order = |(place, amount): (usize, &u64)| Order { place, amount: *amount };
        let orders: Vec<Order> = amounts.iter().enumerate().filter(|(_, amount)| **amount > 0).map(order).collect();
        let spent = dump(&self.stores, &orders, &mut self.links);
        assert!(spent <= step.window, "no more is sent than the window allows");
        self.report(number, step);
    }

    fn report(&mut self, number: usize, step: &Step) {
        for (place, (id, _)) in self.setup.stores.iter().enumerate() {
            let Counters(now) = Counters::of(&self.stores[place]);
            let Counters(old) = std::mem::replace(&mut self.before[place], Counters(now));
            let [arrived, lost, dumped] = [0, 1, 2].map(|which| now[which] - old[which]);
            writeln!(self.rows, "step {number} {id} arrived {arrived} lost {lost} dumped {dumped} held {}", now[3]).unwrap();
            let forecast = step.arrivals[place];
            if arrived != forecast {
                writeln!(self.differs, "differs step {number} {id} forecast {forecast} came {arrived}").unwrap();
            }
            self.totals = [self.totals[0] + arrived, self.totals[1] + lost, self.totals[2] + dumped];
        }
    }
}

/// Carries a plan out. The words name a setup, a forecast, a plan, sources and links.
pub fn run(words: &[String]) {
    let [setup, forecast, plan, sources, links] = [0, 1, 2, 3, 4].map(|file| fs::read_to_string(&words[file]).expect("a file"));
    let forecast = read_forecast(&forecast);
    let plan = read_plan(&plan);
    let mut given = read_sources(&sources, forecast.len());
    let mut run = Run::new(read_setup(&setup), read_links(&links));
    for (at, (step, amounts)) in forecast.iter().zip(&plan).enumerate() {
        run.step(at + 1, step, amounts, &mut given[at + 1]);
    }
    let held: u64 = run.before.iter().map(|Counters(now)| now[3]).sum();
    let [arrived, lost, dumped] = run.totals;
    print!("{}{}", run.rows, run.differs);
    println!("total arrived {arrived} lost {lost} dumped {dumped} held {held}");
}
