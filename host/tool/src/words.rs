//! The command's words: which command, its operands and its options.

use crate::failure::{trouble, Failure};
use std::str::FromStr;

pub const USAGE: &str = "\
castribba: settings maps, looked at and edited

  castribba show FILE                       a map, or an operation, in words
  castribba bays MAP                        what each of the 24 bays boots
  castribba get MAP KEY                     one entry, in words
  castribba set MAP ACTOR KEY VALUE         the map after this actor has set the key
  castribba remove MAP KEY                  the map without the key, which is withdrawn
  castribba apply MAP OP                    the map after an operation that is the next
  castribba merge MAP OTHER                 the two maps merged
  castribba diff MAP OTHER                  keys only in one, and keys that differ
  castribba floor MAP...                    what all of these maps have seen
  castribba catch-up MAP THEIRS LIST        whether a list of operations brings the map to theirs
  castribba salvage FILE                    what comes back of a damaged map, and what was lost

A FILE, MAP, OTHER, THEIRS or OP is a file that holds an image and nothing else, or - for standard
input; a LIST holds up to 32 operations one after another. The empty map is an empty file. KEY, ACTOR, VALUE and CODE are decimal numbers.

set, remove, apply and merge write a map:
  -o FILE        to this file, which may be the one that was read; else to standard output
  --op FILE      set and remove: the operation too, for the others to apply
  --origin CODE  set: who set the value, a code that stays with it; else 0, for none
  --entry        remove: the entry's own dots alone, for a map that one actor writes; where several do,
                 its values may stand on other drives
  --anyway       apply: though something that the update's writer had seen is missing, which may lose
                 settings and part the drives
                 merge: though one dot stands under different keys, which loses both
salvage writes a map only where -o says so, never over the damaged file, and says in words what was lost
(on standard error for -o -).

remove takes from the key all that the map has seen. merge brings old values back, overwritten and
withdrawn ones, where both maps were in use: catch up by operations. diff compares settings: the clocks of
values and their order are left aside, in which drives that agree may differ.

Exit status: 0 done; 1 refused, with the number and its text; 2 a fault in the command or a file;
3 diff found a difference, or salvage something to tell. Unless it is 0 or 3, nothing was written.
";

/// A command as it was given.
pub struct Words {
    pub command: String,
    pub operands: Vec<String>,
    pub output: Option<String>,
    pub operation: Option<String>,
    pub origin: Option<String>,
    pub anyway: bool,
    pub entry: bool,
}

/// What a command takes: its operands, whether it writes a map, and the options of its own.
struct Form {
    command: &'static str,
    operands: &'static [&'static str],
    writes: bool,
    options: &'static [&'static str],
}

const fn form(
    command: &'static str,
    operands: &'static [&'static str],
    writes: bool,
    options: &'static [&'static str],
) -> Form {
    Form { command, operands, writes, options }
}

const FORMS: [Form; 11] = [
    form("show", &["FILE"], false, &[]),
    form("bays", &["MAP"], false, &[]),
    form("get", &["MAP", "KEY"], false, &[]),
    form("set", &["MAP", "ACTOR", "KEY", "VALUE"], true, &["--op", "--origin"]),
    form("remove", &["MAP", "KEY"], true, &["--op", "--entry"]),
    form("apply", &["MAP", "OP"], true, &["--anyway"]),
    form("merge", &["MAP", "OTHER"], true, &["--anyway"]),
    form("diff", &["MAP", "OTHER"], false, &[]),
    form("floor", &["MAP..."], false, &[]),
    form("catch-up", &["MAP", "THEIRS", "LIST"], false, &[]),
    form("salvage", &["FILE"], true, &[]),
];

impl Words {
    /// Reads the words behind the program's name.
    pub fn read(given: Vec<String>) -> Result<Words, Failure> {
        let mut given = given.into_iter();
        let command = given.next().unwrap_or_default();
        let Some(form) = FORMS.iter().find(|form| form.command == command) else {
            return trouble(format!("no command '{command}'; castribba --help lists them"));
        };
        let mut words = Words {
            command,
            operands: Vec::new(),
            output: None,
            operation: None,
            origin: None,
            anyway: false,
            entry: false,
        };
        while let Some(word) = given.next() {
            let known = (word == "-o" && form.writes) || form.options.contains(&word.as_str());
            match word.as_str() {
                "-o" if known => once(&word, "file", &mut words.output, given.next())?,
                "--op" if known => once(&word, "file", &mut words.operation, given.next())?,
                "--origin" if known => once(&word, "number", &mut words.origin, given.next())?,
                "--anyway" if known => words.anyway = true,
                "--entry" if known => words.entry = true,
                _ if looks_like_option(&word) => {
                    return trouble(format!("{} has no option {word}", words.command));
                }
                _ => words.operands.push(word),
            }
        }
        words.judged(form)
    }

    fn judged(self, form: &Form) -> Result<Words, Failure> {
        let many = form.operands == ["MAP..."] && !self.operands.is_empty();
        if self.operands.len() != form.operands.len() && !many {
            let wanted = form.operands.join(" ");
            let found = self.operands.len();
            return trouble(format!(
                "{} wants {wanted}, and was given {found} words",
                self.command
            ));
        }
        if self.operands.iter().filter(|word| *word == "-").count() > 1 {
            return trouble("standard input can be read once: only one file may be -");
        }
        if self.operation.as_deref() == Some("-") && self.output.as_deref().unwrap_or("-") == "-" {
            return trouble("the map and the operation can not both go to standard output");
        }
        Ok(self)
    }

    /// An operand that is a number of some width.
    pub fn number<N: FromStr + Limit>(&self, place: usize, name: &str) -> Result<N, Failure> {
        number_of(&self.operands[place], name)
    }

    /// The origin of a value: 0, for none, where none is given.
    pub fn origin(&self) -> Result<u16, Failure> {
        self.origin.as_deref().map_or(Ok(0), |code| number_of(code, "CODE"))
    }
}

fn number_of<N: FromStr + Limit>(word: &str, name: &str) -> Result<N, Failure> {
    let digits = word.bytes().all(|byte| byte.is_ascii_digit());
    match word.parse() {
        Ok(number) if digits => Ok(number),
        _ => trouble(format!("{name} is a number from 0 to {}, and not '{word}'", N::MOST)),
    }
}

/// A lone `-` is a file, and a number below zero is a number, though none that is taken.
fn looks_like_option(word: &str) -> bool {
    word.strip_prefix('-').is_some_and(|rest| !rest.is_empty() && rest.parse::<u64>().is_err())
}

fn once(
    word: &str,
    what: &str,
    place: &mut Option<String>,
    given: Option<String>,
) -> Result<(), Failure> {
    match given {
        None => trouble(format!("{word} wants a {what} behind it")),
        Some(_) if place.is_some() => trouble(format!("{word} was given twice")),
        Some(_) => {
            *place = given;
            Ok(())
        }
    }
}

/// The largest number of a width.
pub trait Limit {
    const MOST: u64;
}

impl Limit for u16 {
    const MOST: u64 = u16::MAX as u64;
}
impl Limit for u32 {
    const MOST: u64 = u32::MAX as u64;
}
impl Limit for u64 {
    const MOST: u64 = u64::MAX;
}
