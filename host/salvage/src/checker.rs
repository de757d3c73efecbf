//! Puts an input to both calls, and compares all that they did with the statement; holds the statement to its laws.

use crate::laws;
use crate::subject::Subject;
use crate::worn::Damage;
use compare::panics::caught;
use compare::question::dump;
use compare::random::Random;
use oracle::expected::{refused, Answer};
use oracle::salvage::{salvage, Salvaged};
use std::collections::BTreeMap;

/// Bytes on each side of a buffer that no call may touch.
const GUARD: usize = 48;
/// Differences printed in full, made small; the others are only counted.
const PRINTED: u64 = 5;
/// Inputs between two lines of progress.
const PROGRESS: u64 = 100_000;

#[derive(Clone, Copy, PartialEq, Eq, PartialOrd, Ord)]
enum Call {
    Salvage,
    Report,
}

const CALLS: [Call; 2] = [Call::Salvage, Call::Report];

pub struct Checker<'a> {
    subject: &'a dyn Subject,
    random: Random,
    /// For each damage: inputs, and how many records were told by each step, from 0 for inputs with nothing to tell.
    met: BTreeMap<Damage, [u64; 7]>,
    /// How often each call answered 0, 2 and 10.
    numbers: BTreeMap<(Call, u32), u64>,
    pub inputs: u64,
    pub cases: u64,
    pub differences: u64,
}

/// What the bytes around an answer look like before a call.
fn pattern(place: usize) -> u8 {
    (place as u8).wrapping_mul(37) ^ 0xA5
}

/// A report as a reader has it.
fn told(report: &[u8]) -> String {
    let line = |one: &[u8]| {
        let place = u32::from_le_bytes(one[..4].try_into().unwrap());
        format!("    record {place} by step {}", one[4])
    };
    report.chunks_exact(5).map(line).collect::<Vec<_>>().join("\n")
}

/// What each call must answer, given room enough.
fn expected(call: Call, salvaged: &Result<Salvaged, u32>) -> Answer {
    match (salvaged, call) {
        (Err(number), _) => refused(*number),
        (Ok(salvaged), Call::Salvage) => {
            Answer { bytes: salvaged.image.clone(), ..Answer::default() }
        }
        (Ok(salvaged), Call::Report) => Answer { bytes: salvaged.report(), ..Answer::default() },
    }
}

impl<'a> Checker<'a> {
    pub fn new(subject: &'a dyn Subject, seed: u64) -> Checker<'a> {
        Checker {
            subject,
            // other numbers than the inputs are made from
            random: Random::new(!seed),
            met: BTreeMap::new(),
            numbers: BTreeMap::new(),
            inputs: 0,
            cases: 0,
            differences: 0,
        }
    }

    /// Compares both calls on an input, in a buffer or several.
    pub fn compare(&mut self, damage: Damage, input: &[u8]) {
        let salvaged = salvage(input);
        self.count(damage, &salvaged);
        if let Ok(salvaged) = &salvaged {
            if let Some(law) = laws::broken(input, salvaged) {
                self.differs(input, law.to_string());
            }
        }
        for call in CALLS {
            let full = expected(call, &salvaged);
            for room in self.rooms(call, full.bytes.len()) {
                let answer = full.in_room(room);
                self.cases += 1;
                *self.numbers.entry((call, answer.number)).or_default() += 1;
                if let Some(fault) = self.fault(call, input, &answer, room) {
                    self.differs(input, fault);
                }
            }
        }
    }

    /// An accepted image from which records were lost, and what must come back of it.
    pub fn compare_loss(&mut self, before: &[u8], left: &[u8]) {
        if oracle::image::read_map(before).is_ok() {
            let salvaged = salvage(left).expect("what is left of an image is no longer");
            if let Some(law) = laws::broken_loss(before, left, &salvaged) {
                self.differs(left, law.to_string());
            }
        }
        self.compare(Damage::Lost, left);
    }

    fn count(&mut self, damage: Damage, salvaged: &Result<Salvaged, u32>) {
        self.inputs += 1;
        let met = self.met.entry(damage).or_default();
        met[6] += 1;
        if let Ok(salvaged) = salvaged {
            met[0] += u64::from(salvaged.told.is_empty());
            salvaged.told.iter().for_each(|(_, step)| met[usize::from(*step)] += 1);
        }
        if self.inputs % PROGRESS == 0 {
            println!("{} inputs so far, {} differences", self.inputs, self.differences);
        }
    }

    /// Buffer lengths around the answer's, and others.
    fn rooms(&mut self, call: Call, length: usize) -> Vec<usize> {
        let longest = if call == Call::Salvage { 28_800 } else { 9_005 };
        let any = match self.random.below(4) {
            0 => 0,
            1 => longest,
            2 => length + self.random.between(1, 40),
            _ => self.random.below(length + 1),
        };
        match self.random.below(8) {
            0 => vec![length, length.saturating_sub(1), length + 1, any],
            1 => vec![any],
            2 => vec![length.saturating_sub(1)],
            _ => vec![length],
        }
    }

    /// What is wrong with the answer, if anything: number, length, every byte written, every byte left alone.
    fn fault(
        &mut self,
        call: Call,
        input: &[u8],
        expected: &Answer,
        room: usize,
    ) -> Option<String> {
        // at odd addresses: a call must not lean on alignment
        let shift = self.random.below(16);
        let mut copy: Vec<u8> = (0..shift).map(pattern).collect();
        copy.extend_from_slice(input);
        let start = GUARD + self.random.below(16);
        let mut buffer: Vec<u8> = (0..start + room + GUARD).map(pattern).collect();

        let (subject, out) = (self.subject, &mut buffer[start..start + room]);
        let asked = caught(|| match call {
            Call::Salvage => subject.salvage(&copy[shift..], out),
            Call::Report => subject.salvage_report(&copy[shift..], out),
        });
        let name = if call == Call::Salvage { "salvage" } else { "salvage_report" };
        let shown = if call == Call::Salvage { dump } else { told };
        let Some(word) = asked else {
            return Some(format!("{name} panics, for {}", expected.number));
        };
        let (number, length) = ((word >> 32) as u32, word as u32 as usize);
        if (number, length) != (expected.number, expected.bytes.len()) {
            let wrote =
                if length <= room { shown(&buffer[start..start + length]) } else { String::new() };
            return Some(format!(
                "{name} answers {number} with length {length}, for {} with length {}, in a buffer of {room}\n{wrote}\n  \
                 for\n{}",
                expected.number,
                expected.bytes.len(),
                shown(&expected.bytes)
            ));
        }
        let written = start..start + length;
        if buffer[written.clone()] != expected.bytes[..] {
            let (got, wanted) = (shown(&buffer[written]), shown(&expected.bytes));
            return Some(format!("{name} writes\n{got}\n  for\n{wanted}"));
        }
        let touched = (0..buffer.len())
            .find(|place| !written.contains(place) && buffer[*place] != pattern(*place));
        if let Some(place) = touched {
            let place = place as i64 - start as i64;
            return Some(format!("{name} touches byte {place} of a buffer of {room}"));
        }
        (copy[shift..] != *input).then(|| format!("{name} changes its input"))
    }

    /// A fault in any call and any of the buffers around the answer, or a broken law.
    fn fault_anywhere(&mut self, input: &[u8]) -> Option<String> {
        let salvaged = salvage(input);
        let law = salvaged.as_ref().ok().and_then(|salvaged| laws::broken(input, salvaged));
        if let Some(law) = law {
            return Some(law.to_string());
        }
        CALLS.into_iter().find_map(|call| {
            let full = expected(call, &salvaged);
            let length = full.bytes.len();
            [length, length.saturating_sub(1), length + 40]
                .into_iter()
                .find_map(|room| self.fault(call, input, &full.in_room(room), room))
        })
    }

    fn differs(&mut self, input: &[u8], fault: String) {
        self.differences += 1;
        if self.differences > PRINTED {
            return;
        }
        // leave records out for as long as something is still wrong: many at once, then one by one
        let (mut smallest, mut fault) = (input.to_vec(), fault);
        let mut run = (smallest.len() / 16).next_power_of_two();
        while run > 0 {
            let mut place = 0;
            while place < smallest.len() / 16 {
                let end = (place + run).min(smallest.len() / 16);
                let mut smaller = smallest.clone();
                smaller.drain(place * 16..end * 16);
                match self.fault_anywhere(&smaller) {
                    Some(its_fault) => (smallest, fault) = (smaller, its_fault),
                    None => place += run,
                }
            }
            run /= 2;
        }
        println!("DIFFERENCE on {} bytes:\n{}\n  {fault}\n", smallest.len(), dump(&smallest));
    }

    /// What was met, and what the steps told.
    pub fn print_table(&self) {
        let heads = ["inputs", "accepted", "step 1", "step 2", "step 3", "step 4", "step 5"];
        print!("{:<12}", "damage");
        heads.iter().for_each(|head| print!("{head:>11}"));
        println!();
        for (damage, met) in &self.met {
            print!("{:<12}{:>11}", format!("{damage:?}"), met[6]);
            met[..6].iter().for_each(|times| print!("{times:>11}"));
            println!();
        }
        for (call, name) in CALLS.into_iter().zip(["salvage", "salvage_report"]) {
            let times = |number| self.numbers.get(&(call, number)).copied().unwrap_or(0);
            println!("{name}: 0 {} times, 2 {}, 10 {}", times(0), times(2), times(10));
        }
    }

    /// Whether every step told something, nothing at all was told too, and each call met each of its numbers.
    pub fn met_all(&self) -> bool {
        (0..6).all(|step| self.met.values().any(|met| met[step] != 0))
            && CALLS.into_iter().all(|call| {
                [0, 2, 10].into_iter().all(|number| self.numbers.contains_key(&(call, number)))
            })
    }
}
