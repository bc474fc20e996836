//! The audit of 16,384 entries on four chips in plain Rust, with standard collections, by the updates that the chips haven't applied:
//! `rustc -O bench/audit.rs -o /tmp/audit && /tmp/audit 1000`. It writes what `switchbr audit` writes of `bench/scenarios.py audit`, but
//! the last line; the argument is how many updates wait for each chip.
use std::collections::{HashMap, HashSet};
use std::fmt::{Error, Write as _};
use std::io::{self, Write as _};

type Key = (u16, u64);
type Entry = (Key, u8);

struct Chip {
    rows: HashMap<Key, u8>,
    applied: usize,
}

struct Plane {
    entries: HashMap<Key, u8>,
    updates: Vec<Entry>,
    chips: Vec<Chip>,
    names: Vec<String>,
}

impl Plane {
    fn put(&mut self, key: Key, port: u8) {
        self.entries.insert(key, port);
        self.updates.push((key, port));
    }

    fn turn(&mut self, chip: usize) {
        let chip = &mut self.chips[chip];
        let (key, port) = self.updates[chip.applied];
        chip.rows.insert(key, port);
        chip.applied += 1;
    }
}

fn append_entry(&((vid, mac), port): &Entry, names: &[String], to: &mut String) -> Result<(), Error> {
    for byte in (0..6).rev() {
        write!(to, "{:02x}", mac >> (8 * byte) & 255)?;
        if byte > 0 {
            to.push(':');
        }
    }
    write!(to, " dev {} vlan {vid} static", names[usize::from(port)])
}

fn sorted(entries: impl Iterator<Item = Entry>) -> Vec<Entry> {
    let mut entries: Vec<Entry> = entries.collect();
    entries.sort_unstable();
    entries
}

#[inline(never)]
fn append_audit(plane: &Plane, to: &mut String) -> Result<(), Error> {
    for (number, chip) in plane.chips.iter().enumerate() {
        writeln!(to, "domain {}", number + 1)?;
        let pending: HashSet<Key> = plane.updates[chip.applied..].iter().map(|update| update.0).collect();
        for entry in &sorted(plane.entries.iter().map(|(key, port)| (*key, *port))) {
            to.push_str("entry ");
            append_entry(entry, &plane.names, to)?;
            to.push_str(if pending.contains(&entry.0) { " pending\n" } else { " offload\n" });
        }
        let is_stale = |row: &(&Key, &u8)| plane.entries.get(row.0) != Some(row.1);
        for row in &sorted(chip.rows.iter().filter(is_stale).map(|(key, port)| (*key, *port))) {
            to.push_str("stale ");
            append_entry(row, &plane.names, to)?;
            to.push('\n');
        }
        writeln!(to, "pending {}", plane.updates.len() - chip.applied)?;
    }
    Ok(())
}

fn main() -> io::Result<()> {
    let left: usize = std::env::args().nth(1).map_or(0, |word| word.parse().expect("a number"));
    let chips = (0..4).map(|_| Chip { rows: HashMap::new(), applied: 0 }).collect();
    let names = (0..17).map(|port| format!("p{port}")).collect();
    let mut plane = Plane { entries: HashMap::new(), updates: Vec::new(), chips, names };
    for station in 0..16384 {
        plane.put((1, 0x0200_0000_0000 + station), (station % 16 + 1) as u8);
    }
    for chip in 0..4 {
        for _ in left..16384 {
            plane.turn(chip);
        }
    }
    let mut text = String::new();
    append_audit(&plane, &mut text).expect("a text");
    io::stdout().write_all(text.as_bytes())
}
