//! Times salvage's calls on the longest images, beside a memcpy of them: the thread's own time.

use crate::subject::Subject;
use bench::timing::{columns, thread_time, SAMPLE};
use oracle::full::full_map;
use oracle::image::{bytes_of, map_image, records_of, Record, LONGEST_MAP};
use std::hint::black_box;

/// The longest image, and what wear makes of it: each has 28,800 bytes.
fn inputs() -> Vec<(&'static str, Vec<u8>)> {
    let good = map_image(&full_map(|_| false));
    let changed = |change: &dyn Fn(usize, &mut Record)| {
        let mut records = records_of(&good);
        records.iter_mut().enumerate().for_each(|(place, record)| change(place, record));
        bytes_of(&records)
    };
    let first_clock: Vec<u64> = records_of(&good)
        .iter()
        .filter(|r| r.kind == 5 && r.index == 0)
        .map(|r| r.number)
        .collect();
    vec![
        ("accepted", good.clone()),
        (
            "a record in ten bad",
            changed(&|place, r| r.kind = if place % 10 == 9 { 0 } else { r.kind }),
        ),
        (
            "waiting clocks in the reverse order",
            changed(&|_, r| r.number = if r.kind == 5 { 9000 - r.number } else { r.number }),
        ),
        (
            "waiting clocks all equal",
            changed(&|_, r| {
                if r.kind == 5 {
                    r.number = first_clock[usize::from(r.actor) - 1];
                }
            }),
        ),
        (
            "value indexes with gaps",
            changed(&|_, r| {
                r.index = if matches!(r.kind, 3 | 4) { 3 * r.index + 1 } else { r.index }
            }),
        ),
        ("no map clock", changed(&|_, r| r.number = if r.kind == 1 { 0 } else { r.number })),
        ("all erased", vec![0xFF; LONGEST_MAP]),
    ]
}

/// Nanoseconds for one run, over a batch.
fn sample(batch: usize, run: &mut dyn FnMut()) -> f64 {
    let start = thread_time();
    (0..batch).for_each(|_| run());
    (thread_time() - start).as_nanos() as f64 / batch as f64
}

/// Prints a table of medians: each input through both calls and through memcpy, in turn in every round.
pub fn print(subject: &dyn Subject, rounds: usize) {
    println!(
        "{}: microseconds, median (least to most) of {rounds} rounds, 28,800 bytes",
        subject.name()
    );
    println!("| input | salvage | salvage_report | memcpy | salvage: so many times |");
    println!("|---|---|---|---|---|");
    for (name, input) in inputs() {
        assert_eq!(input.len(), LONGEST_MAP);
        let (mut image, mut report) = (vec![0; LONGEST_MAP], vec![0; 9_005]);
        let mut copy = vec![0; LONGEST_MAP];
        let mut runs: [&mut dyn FnMut(); 3] = [
            &mut || {
                black_box(subject.salvage(black_box(&input), &mut image));
            },
            &mut || {
                black_box(subject.salvage_report(black_box(&input), &mut report));
            },
            &mut || {
                copy.copy_from_slice(black_box(&input));
                black_box(&copy);
            },
        ];
        let batches: Vec<usize> = runs
            .iter_mut()
            .map(|run| {
                let mut batch = 1;
                while batch < 1 << 16
                    && sample(batch, run) * (batch as f64) < SAMPLE.as_nanos() as f64
                {
                    batch *= 2;
                }
                batch
            })
            .collect();
        let mut times = vec![Vec::new(); runs.len()];
        for _ in 0..rounds {
            for (place, run) in runs.iter_mut().enumerate() {
                times[place].push(sample(batches[place], run) / 1000.0);
            }
        }
        let ratio = times[0].iter().zip(&times[2]).map(|(own, copied)| own / copied).collect();
        let [salvage, told, copied] = [0, 1, 2].map(|place| columns(times[place].clone()));
        println!("| {name} | {salvage} | {told} | {copied} | {} |", columns(ratio));
    }
}
