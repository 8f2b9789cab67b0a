//! The floor of the benchmark: reads a setup and a forecast and writes a plan text of the same form, without planning. Each
//! window goes to what arrives in its step, store by store. Plain Rust, rustc alone.
//!
//!     floor SETUP FORECAST

use std::fmt::Write as _;
use std::io::Write as _;

const MAX_BLOCKS: u32 = 1_000_000;

/// A table of the setup: its name, and its keys with their values.
struct Table<'a> {
    name: &'a str,
    entries: Vec<(&'a str, &'a str)>,
}

impl Table<'_> {
    fn text(&self, key: &str) -> Option<&str> {
        let (_, value) = self.entries.iter().find(|entry| entry.0 == key)?;
        value.strip_prefix('"')?.strip_suffix('"')
    }

    fn number(&self, key: &str) -> Option<u32> {
        let (_, value) = self.entries.iter().find(|entry| entry.0 == key)?;
        blocks(value)
    }
}

fn blocks(text: &str) -> Option<u32> {
    text.parse().ok().filter(|number| *number <= MAX_BLOCKS)
}

/// The tables of a setup as `make.py` writes it.
fn tables(setup: &str) -> Option<Vec<Table<'_>>> {
    let mut tables: Vec<Table> = Vec::new();
    for line in setup.lines().filter(|line| !line.is_empty() && !line.starts_with('#')) {
        match line.strip_prefix("[[") {
            Some(rest) => tables.push(Table { name: rest.strip_suffix("]]")?, entries: Vec::new() }),
            None => tables.last_mut()?.entries.push(line.split_once(" = ")?),
        }
    }
    Some(tables)
}

/// The identifiers of the stores, once the fields of all tables have been read.
fn stores<'a>(tables: &'a [Table<'a>]) -> Option<Vec<&'a str>> {
    let mut stores = Vec::new();
    for table in tables {
        match table.name {
            "store" => {
                let size = table.number("size")?;
                if table.number("start").unwrap_or(0) > size || table.number("channel")? > 7 {
                    return None;
                }
                table.text("type").filter(|kind| ["bounded", "circular"].contains(kind))?;
                stores.push(table.text("id").filter(|id| !stores.contains(id))?);
            }
            "limit" => {
                table.number("channel").filter(|channel| *channel <= 7)?;
                table.number("blocks")?;
            }
            _ => {
                table.text("store")?;
            }
        }
    }
    Some(stores)
}

/// Writes the plan text of a setup and a forecast.
fn plan(setup: &str, forecast: &str) -> Option<String> {
    let tables = tables(setup)?;
    let stores = stores(&tables)?;
    let mut lines = forecast.lines();
    let header = lines.next()?.split(',').skip(2);
    if !header.eq(stores.iter().copied()) {
        return None;
    }
    let mut text = String::from("mmplan 1\nstores");
    for store in &stores {
        write!(text, " {store}").ok()?;
    }
    text.push('\n');
    for (place, line) in lines.enumerate() {
        let mut cells = line.split(',');
        let step = cells.next()?;
        if step.parse() != Ok(place + 1) {
            return None;
        }
        write!(text, "dump {step}").ok()?;
        let mut window = blocks(cells.next()?)?;
        for cell in cells {
            let amount = blocks(cell)?.min(window);
            window -= amount;
            write!(text, " {amount}").ok()?;
        }
        text.push('\n');
    }
    text.push_str("loss 0\n");
    for store in &stores {
        writeln!(text, "stretch {store} 1 1").ok()?;
    }
    text.push_str("bound 0\nend\n");
    Some(text)
}

fn main() {
    let words: Vec<String> = std::env::args().collect();
    let setup = std::fs::read_to_string(&words[1]).expect("a setup");
    let forecast = std::fs::read_to_string(&words[2]).expect("a forecast");
    let text = plan(&setup, &forecast).expect("texts of make.py");
    std::io::stdout().write_all(text.as_bytes()).expect("standard output");
}
