//! The tool `castribba`: maps looked at, edited, merged, compared and salvaged.

mod failure;
mod files;
mod lost;
mod words;

use castribba::Rejected;
use castribba::{
    loader, salvage, slices, Class, Clock, Entry, Map, Operation, Ready, Record, Refusal,
};
use failure::{trouble, Failure};
use files::{bytes_of, is_same_file, map_in, named, operation_in, print, shown, write_all};
use std::process::ExitCode;
use words::Words;

const DIFFERENT: u8 = 3;

fn main() -> ExitCode {
    let mut given = Vec::new();
    for word in std::env::args_os().skip(1) {
        match word.into_string() {
            Ok(word) => given.push(word),
            Err(word) => return stopped(&Failure::Trouble(format!("{word:?} is not UTF-8"))),
        }
    }
    match run(given) {
        Ok(status) => ExitCode::from(status),
        Err(failure) => stopped(&failure),
    }
}

fn stopped(failure: &Failure) -> ExitCode {
    eprintln!("castribba: {failure}");
    ExitCode::from(failure.status())
}

fn run(given: Vec<String>) -> Result<u8, Failure> {
    match given.first().map(String::as_str) {
        None => return trouble("no command; castribba --help lists them"),
        Some("--help" | "-h" | "help") => return say(words::USAGE),
        Some("--version") => return say(concat!("castribba ", env!("CARGO_PKG_VERSION"), "\n")),
        Some(_) => {}
    }
    let words = Words::read(given)?;
    match words.command.as_str() {
        "show" => say(&format!("{}\n", shown(&words.operands[0])?)),
        "bays" => bays(&words),
        "get" => get(&words),
        "set" => set(&words),
        "remove" => remove(&words),
        "apply" => apply(&words),
        "merge" => merge(&words),
        "catch-up" => catch_up(&words),
        "diff" => diff(&words),
        "floor" => floor(&words),
        _ => salvaged(&words),
    }
}

/// A line for a reader that is no reason to stop.
fn note(text: &str) {
    eprintln!("castribba: {text}");
}

fn say(text: &str) -> Result<u8, Failure> {
    print(text.as_bytes())?;
    Ok(0)
}

/// A refusal of a call on images that were accepted.
fn refused<T>(words: &Words, answer: Result<T, Refusal>) -> Result<T, Failure> {
    answer.map_err(|refusal| Failure::Refused {
        what: words.command.clone(),
        refusal,
        more: String::new(),
    })
}

fn write_map(words: &Words, map: &Map) -> Result<u8, Failure> {
    write_all(&[(words.output.as_deref().unwrap_or("-"), map.as_image())])?;
    Ok(0)
}

/// Applies an operation that was made here, and writes the map and, where asked for, the operation.
fn write_edit(words: &Words, mut map: Map, op: &Operation) -> Result<u8, Failure> {
    refused(words, map.apply(op))?;
    match &words.operation {
        None => write_map(words, &map),
        Some(file) => {
            let output = words.output.as_deref().unwrap_or("-");
            write_all(&[(file, op.as_image()), (output, map.as_image())])?;
            Ok(0)
        }
    }
}

fn bays(words: &Words) -> Result<u8, Failure> {
    let map = map_in(&words.operands[0])?;
    let reports = refused(words, loader::bays(map.as_image()))?;
    let lines = (1..).zip(&reports).map(|(bay, report)| match (report.value, report.remaining) {
        (None, _) => format!("bay {bay}: nothing\n"),
        (Some(value), 1) => format!("bay {bay}: {value}\n"),
        (Some(value), several) if report.differ => {
            format!("bay {bay}: {value}, the smallest of {several} that differ\n")
        }
        (Some(value), several) => format!("bay {bay}: {value}, as all {several} values say\n"),
    });
    say(&lines.collect::<String>())
}

fn get(words: &Words) -> Result<u8, Failure> {
    let key = words.number(1, "KEY")?;
    match map_in(&words.operands[0])?.entry(key) {
        Some(entry) => say(&format!("{entry}\n")),
        None => say(&format!("key {key}: no entry\n")),
    }
}

fn set(words: &Words) -> Result<u8, Failure> {
    let (actor, key) = (words.number(1, "ACTOR")?, words.number(2, "KEY")?);
    let value = words.number(3, "VALUE")?;
    let map = map_in(&words.operands[0])?;
    let op = refused(words, map.update(actor, key, value, words.origin()?))?;
    write_edit(words, map, &op)
}

fn remove(words: &Words) -> Result<u8, Failure> {
    let key = words.number(1, "KEY")?;
    let map = map_in(&words.operands[0])?;
    if !map.contains_key(key) {
        return trouble(format!("{} has no entry for key {key}", named(&words.operands[0])));
    }
    let op = if words.entry { map.remove_entry(key) } else { map.withdraw(key) };
    let written = write_edit(words, map, &refused(words, op)?)?;
    if words.entry {
        note("this removes the entry's own dots alone: where several actors write the map, its values may stand on other drives");
    }
    Ok(written)
}

/// What the guard says: an update that must be held, or that no `set` made, is not applied.
fn guarded(map: &Map, op: &Operation) -> Result<(), Failure> {
    match map.ready(op) {
        Ready::Next => Ok(()),
        Ready::Seen => {
            note("the update was seen, and changes nothing");
            Ok(())
        }
        not_next => Err(Failure::NotNext(not_next)),
    }
}

fn apply(words: &Words) -> Result<u8, Failure> {
    let mut map = map_in(&words.operands[0])?;
    let op = operation_in(&words.operands[1])?;
    if !words.anyway {
        guarded(&map, &op)?;
    }
    refused(words, map.apply(&op))?;
    write_map(words, &map)
}

fn merge(words: &Words) -> Result<u8, Failure> {
    let mut map = map_in(&words.operands[0])?;
    let other = map_in(&words.operands[1])?;
    if !words.anyway {
        refused(words, map.validate_merge(&other))?;
    }
    refused(words, map.merge(&other))?;
    write_map(words, &map)
}

/// An operation of a list in words, or how many bytes it has where it is none.
fn proposed(operation: &[u8]) -> String {
    match Operation::from_image(operation) {
        Ok(op) => op.to_string(),
        Err(_) => format!("no operation: {} bytes", operation.len()),
    }
}

fn catch_up(words: &Words) -> Result<u8, Failure> {
    let map = map_in(&words.operands[0])?;
    let theirs = map_in(&words.operands[1])?;
    let list = bytes_of(&words.operands[2])?;
    let Err(rejected) = slices::catch_up(map.as_image(), theirs.as_image(), &list) else {
        return say(&format!("{} operations\n", slices::operations(&list).count()));
    };
    let more = match rejected {
        Rejected::Operation { place, .. } => {
            let operation = slices::operations(&list).nth(place).unwrap_or_default();
            format!("\n  operation {place}: {}", proposed(operation))
        }
        _ => String::new(),
    };
    Err(Failure::Refused {
        what: named(&words.operands[2]).to_string(),
        refusal: rejected.refusal(),
        more,
    })
}

/// Whether two entries of a key are the same setting, whatever the order of their values, and the clocks of
/// these: drives that were given the same operations may differ in both.
fn same(map: &Map, other: &Map, key: u32) -> bool {
    let (Some(one), Some(other)) = (map.entry(key), other.entry(key)) else {
        return false;
    };
    let values = |entry: &Entry| {
        let mut values: Vec<_> =
            entry.values.iter().map(|held| (held.value, held.origin)).collect();
        values.sort_unstable();
        values
    };
    one.clock == other.clock && values(&one) == values(&other)
}

/// What all of the maps have seen.
fn floor(words: &Words) -> Result<u8, Failure> {
    let maps = words.operands.iter().map(|file| map_in(file));
    let clocks = maps.map(|map| Ok(map?.clock())).collect::<Result<Vec<Clock>, Failure>>()?;
    let floor = refused(words, Clock::floor(&clocks))?;
    say(&format!("all have seen: {floor}\n"))
}

fn diff(words: &Words) -> Result<u8, Failure> {
    let [file, other_file] = [0, 1].map(|place| named(&words.operands[place]));
    let map = map_in(&words.operands[0])?;
    let other = map_in(&words.operands[1])?;
    let mut text = String::new();
    for difference in map.differences(&other) {
        let key = difference.key;
        text += &match difference.class {
            Class::OnlyFirst => format!("only in {file}: key {key}\n"),
            Class::OnlySecond => format!("only in {other_file}: key {key}\n"),
            Class::Other if same(&map, &other, key) => continue,
            Class::Other => format!("differs: key {key}\n"),
        };
    }
    if map.clock() != other.clock() {
        text += &format!("seen: {} in {file}, {} in {other_file}\n", map.clock(), other.clock());
    }
    if !map.waiting().eq(other.waiting()) {
        text += "the removals that wait differ\n";
    }
    say(&text)?;
    Ok(if text.is_empty() { 0 } else { DIFFERENT })
}

/// What comes back of a damaged image: the map where it is asked for, and what was lost in words.
fn salvaged(words: &Words) -> Result<u8, Failure> {
    let file = &words.operands[0];
    let bytes = bytes_of(file)?;
    let answer = salvage::salvage(&bytes).map_err(|refusal| Failure::Refused {
        what: named(file).to_string(),
        refusal,
        more: format!("\n  it has {} bytes: cut the part out that held the map", bytes.len()),
    });
    let (map, told) = answer?;
    if let Some(output) = &words.output {
        if !told.is_empty() && is_same_file(file, output) {
            return trouble(format!(
                "{file}: what came back is not what was there: name another file with -o"
            ));
        }
        write_all(&[(output, map.as_image())])?;
    }
    let text = match (told.len(), bytes.len().div_ceil(Record::BYTES)) {
        (0, _) => format!("{}: accepted as it is, there is nothing to mend\n", named(file)),
        (several, all) => {
            let lost = lost::in_words(&bytes, &map, &told);
            format!("{}: {several} of {all} records are removed or changed\n{lost}", named(file))
        }
    };
    if words.output.as_deref() == Some("-") {
        eprint!("{text}");
    } else {
        print(text.as_bytes())?;
    }
    Ok(if told.is_empty() { 0 } else { DIFFERENT })
}
