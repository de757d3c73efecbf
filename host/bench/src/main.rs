//! Times the calls on full and smaller maps: bench [ROUNDS] prints a table of medians,
//! with their spread, and how many times as long the first subject takes.

mod inputs;
mod subjects;

use bench::timing::{columns, thread_time, DEFAULT_ROUNDS, SAMPLE};
use calls::LONGEST_MAP;
use inputs::Task;
use std::hint::black_box;
use subjects::Subject;

/// Nanoseconds for one run of the task, over a batch of prepared inputs.
fn sample(subject: &dyn Subject, task: &Task, batch: usize) -> f64 {
    let mut prepared = subject.prepare(task, batch);
    let start = thread_time();
    prepared.run();
    let taken = thread_time() - start;
    black_box(&mut prepared);
    taken.as_nanos() as f64 / batch as f64
}

/// So many runs that a sample lasts long enough.
fn batch_for(subject: &dyn Subject, task: &Task) -> usize {
    let mut batch = 1;
    while batch < 4096 && sample(subject, task, batch) * (batch as f64) < SAMPLE.as_nanos() as f64 {
        batch *= 2;
    }
    batch
}

fn main() {
    let rounds =
        std::env::args().nth(1).and_then(|text| text.parse().ok()).unwrap_or(DEFAULT_ROUNDS);
    let every = subjects::all();
    let first = every[0].name();
    println!("Median (least to most) of {rounds} rounds; the longest map, {LONGEST_MAP} bytes,");
    println!("where a task names no other.\n");
    println!("| task | subject | microseconds | nanoseconds a record | {first}: so many times |");
    println!("|---|---|---|---|---|");
    for task in inputs::tasks() {
        let subjects: Vec<_> = every.iter().filter(|subject| subject.takes(&task)).collect();
        for subject in &subjects {
            subject.check(&task);
        }
        let batches: Vec<usize> =
            subjects.iter().map(|subject| batch_for(&***subject, &task)).collect();
        let mut samples = vec![Vec::new(); subjects.len()];
        // one after the other in each round, so that a busy moment hits all of them
        for _ in 0..rounds {
            for (place, subject) in subjects.iter().enumerate() {
                samples[place].push(sample(&***subject, &task, batches[place]));
            }
        }
        for (subject, times) in subjects.iter().zip(&samples) {
            let microseconds = columns(times.iter().map(|time| time / 1000.0).collect());
            let a_record = if task.of_image && subject.reads_image() {
                columns(times.iter().map(|time| time / (LONGEST_MAP / 16) as f64).collect())
            } else {
                String::new()
            };
            // round by round, so that what slows both of them cancels out
            let ratio =
                columns(samples[0].iter().zip(times).map(|(own, other)| own / other).collect());
            println!(
                "| {} | {} | {microseconds} | {a_record} | {ratio} |",
                task.name,
                subject.name()
            );
        }
    }
}
