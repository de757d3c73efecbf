//! What a damaged image lost, in words: by bay or key, and by value, where it can be told.

use castribba::salvage::{Step, Told};
use castribba::{kind, Map, Record, Removal};
use std::collections::BTreeMap;
use std::fmt::Write;

/// What became of the records that were told of.
#[derive(Default)]
struct Losses {
    /// Bytes at the end that are all 00 or all FF, from a record's start on.
    blank: usize,
    /// Bytes of a part of a record at the end.
    part: usize,
    /// Bad by themselves: what they were cannot be told.
    bad: Vec<(u32, Record)>,
    /// They stood twice, or have another index: nothing of them is lost.
    twice: usize,
    moved: usize,
    lost: Vec<Record>,
}

/// The input's records with what was told of each.
struct Input<'a> {
    records: Vec<Record>,
    steps: BTreeMap<usize, Step>,
    waiting: Vec<Removal>,
    bytes: &'a [u8],
}

impl Input<'_> {
    /// Whether a record came back, perhaps with another index; of those told by 5 some did not.
    fn came_back(&self, place: usize) -> bool {
        matches!(self.steps.get(&place), None | Some(Step::Mended))
    }

    fn kept(&self) -> impl Iterator<Item = &Record> + '_ {
        let places = self.records.iter().enumerate();
        places.filter(|(place, _)| self.came_back(*place)).map(|(_, record)| record)
    }

    /// The removal that came back for the clock of a waiting index.
    fn united(&self, index: u8) -> Option<&Removal> {
        let dots = |r: &&Record| r.kind == kind::WAITING_DOT && r.index == index;
        let clock: Vec<(u16, u64)> =
            self.kept().filter(dots).map(|r| (r.actor, r.number)).collect();
        self.waiting.iter().find(|removal| removal.clock.dots().eq(clock.iter().copied()))
    }

    /// The place from which on all bytes are 00 or all FF.
    fn blank_from(&self) -> usize {
        let used = match self.bytes.last() {
            Some(&fill @ (0x00 | 0xFF)) => self.bytes.iter().rposition(|&byte| byte != fill),
            _ => self.bytes.len().checked_sub(1),
        };
        used.map_or(0, |last| (last + 1).div_ceil(Record::BYTES))
    }

    fn losses(&self) -> Losses {
        let blank_from = self.blank_from();
        let blank = self.bytes.len().saturating_sub(blank_from * Record::BYTES);
        let mut losses = Losses { blank, ..Losses::default() };
        for (&place, &step) in self.steps.range(..blank_from) {
            let Some(&record) = self.records.get(place) else {
                losses.part = self.bytes.len() % Record::BYTES;
                continue;
            };
            match step {
                Step::Bad => losses.bad.push((place as u32, record)),
                Step::Order if self.kept().any(|kept| *kept == record) => losses.twice += 1,
                Step::Mended if record.kind != kind::WAITING_KEY => losses.moved += 1,
                Step::Mended
                    if self
                        .united(record.index)
                        .is_some_and(|one| one.keys.contains(&record.key)) =>
                {
                    losses.moved += 1;
                }
                _ => losses.lost.push(record),
            }
        }
        losses
    }
}

/// A bay by its number, any other key by its own.
fn named(key: u32) -> String {
    match key {
        1..=24 => format!("bay {key}"),
        _ => format!("key {key}"),
    }
}

/// `{1:2 3:1}`
fn dots(records: &[&Record]) -> String {
    let dots: Vec<String> =
        records.iter().map(|dot| format!("{}:{}", dot.actor, dot.number)).collect();
    format!("{{{}}}", dots.join(" "))
}

fn value(record: &Record) -> String {
    match record.actor {
        0 => record.number.to_string(),
        origin => format!("{} (origin {origin})", record.number),
    }
}

/// One key's line; `known` are the records of values that came back or are lost.
fn of_key(key: u32, lost: &[&Record], known: &[&Record], back: &Map) -> String {
    let of_kind = |kind: u8| -> Vec<&Record> {
        lost.iter().copied().filter(|record| record.kind == kind).collect()
    };
    let has_value =
        |dot: &&Record| known.iter().any(|value| (value.key, value.index) == (key, dot.index));
    let mut values: Vec<String> = of_kind(kind::VALUE).iter().map(|record| value(record)).collect();
    let (of_known, of_unknown): (Vec<&Record>, Vec<&Record>) =
        of_kind(kind::VALUE_DOT).into_iter().partition(has_value);
    if !of_unknown.is_empty() {
        values.push("a value that cannot be told".to_string());
    }
    let mut parts = Vec::new();
    if !back.contains_key(key) {
        parts.push("not set any more".to_string());
    }
    if !values.is_empty() {
        parts.push(format!("lost {}", values.join(" and ")));
    }
    if parts.is_empty() {
        let clocks = [
            (of_kind(kind::ENTRY_DOT), "of its clock"),
            (of_known, "of what the writer of a value had seen"),
        ];
        for (lost, whose) in clocks.iter().filter(|(lost, _)| !lost.is_empty()) {
            parts.push(format!("lost {} {whose}", dots(lost)));
        }
    }
    format!("  {}: {}\n", named(key), parts.join(", "))
}

/// What was lost and what was not, a line each; empty where nothing was told.
pub fn in_words(bytes: &[u8], back: &Map, told: &[Told]) -> String {
    let input = Input {
        records: Record::all_of(bytes).collect(),
        steps: told.iter().map(|one| (one.place as usize, one.step)).collect(),
        waiting: back.waiting().collect(),
        bytes,
    };
    let Losses { blank, part, bad, twice, moved, lost } = input.losses();
    let mut text = String::new();
    let of_kind =
        |kind: u8| -> Vec<&Record> { lost.iter().filter(|record| record.kind == kind).collect() };

    let seen = of_kind(kind::CLOCK_DOT);
    if !seen.is_empty() {
        let _ = writeln!(text, "  seen: lost {}", dots(&seen));
    }
    let mut keys: BTreeMap<u32, Vec<&Record>> = BTreeMap::new();
    let entry_kinds = kind::ENTRY_DOT..=kind::VALUE_DOT;
    for record in lost.iter().filter(|record| entry_kinds.contains(&record.kind)) {
        keys.entry(record.key).or_default().push(record);
    }
    let values = input.kept().chain(&lost).filter(|record| record.kind == kind::VALUE);
    let known: Vec<&Record> = values.collect();
    for (key, lost) in &keys {
        text += &of_key(*key, lost, &known, back);
    }
    let waiting = of_kind(kind::WAITING_DOT);
    if !waiting.is_empty() {
        let _ = writeln!(text, "  waiting: lost {} of the clocks of removals", dots(&waiting));
    }
    for record in of_kind(kind::WAITING_KEY) {
        let _ = writeln!(text, "  waiting: lost a removal of {}", named(record.key));
    }
    for run in bad.chunk_by(|one, next| one.0 + 1 == next.0) {
        let _ = match (run[0], run[run.len() - 1]) {
            ((place, record), (last, _)) if place == last => {
                writeln!(text, "  record {place} is bad, and what it was cannot be told: {record}")
            }
            ((first, _), (last, _)) => {
                writeln!(
                    text,
                    "  records {first} to {last} are bad, and what they were cannot be told"
                )
            }
        };
    }
    if blank != 0 {
        let fill = bytes[bytes.len() - 1];
        let _ = writeln!(
            text,
            "  the last {blank} bytes are all {fill:02X}: padding, or an erased page"
        );
    }
    if part != 0 {
        let _ = writeln!(text, "  the last {part} bytes are a part of a record");
    }
    if twice != 0 {
        let _ = writeln!(text, "  stood twice: {twice}, which loses nothing");
    }
    if moved != 0 {
        let _ = writeln!(text, "  another index, or united: {moved}, which loses nothing");
    }
    if !lost.is_empty() || !bad.is_empty() || part != 0 || blank != 0 {
        text += "\
            what was lost counts as removed where this map is merged: take the map of a party that is well, if\n\
            there is one, and merge this one only where there is none\n";
    }
    if !seen.is_empty() {
        text +=
            "an actor whose counter was lost would count from 1 again: give it another number\n";
    }
    text
}
