//! Images read from files and written to them: whole, or not at all.

use crate::failure::{trouble, Failure};
use castribba::{Map, Operation, Record, Refusal};
use std::fs::{self, File};
use std::io::{self, IsTerminal, Read, Write};
use std::path::{Path, PathBuf};

/// No more is read of a file: far above every image, padded ones included.
const READ_MOST: u64 = 1 << 20;

/// A file's name for a reader.
pub fn named(file: &str) -> &str {
    match file {
        "-" => "standard input",
        _ => file,
    }
}

pub fn bytes_of(file: &str) -> Result<Vec<u8>, Failure> {
    let mut bytes = Vec::new();
    let read = match file {
        "-" => io::stdin().lock().take(READ_MOST + 1).read_to_end(&mut bytes),
        _ => File::open(file).and_then(|opened| opened.take(READ_MOST + 1).read_to_end(&mut bytes)),
    };
    match read {
        Err(error) => trouble(format!("{}: {error}", named(file))),
        Ok(_) if bytes.len() as u64 > READ_MOST => Err(Failure::Refused {
            what: named(file).to_string(),
            refusal: Refusal::OverLimit,
            more: format!("\n  it has more than {READ_MOST} bytes"),
        }),
        Ok(_) => Ok(bytes),
    }
}

/// Whether two names are one file's.
pub fn is_same_file(one: &str, other: &str) -> bool {
    match (fs::canonicalize(one), fs::canonicalize(other)) {
        (Ok(one), Ok(other)) => one == other,
        _ => false,
    }
}

/// Says of an image that is refused whether it is a good one with bytes of one kind behind it.
fn padding(bytes: &[u8], accepted: impl Fn(&[u8]) -> bool) -> String {
    for fill in [0x00, 0xFF] {
        let used = bytes.iter().rposition(|&byte| byte != fill).map_or(0, |last| last + 1);
        let len = used.next_multiple_of(Record::BYTES);
        if len >= bytes.len() || !accepted(&bytes[..len]) {
            continue;
        }
        let behind = bytes.len() - len;
        return match len {
            0 => format!("\n  all its {behind} bytes are {fill:02X}; the empty map has no bytes"),
            _ => format!(
                "\n  it is padded: the first {len} bytes are a good image, the {behind} behind them \
                 are all {fill:02X}; cut it there"
            ),
        };
    }
    String::new()
}

fn judged<T>(
    file: &str,
    bytes: &[u8],
    judge: impl Fn(&[u8]) -> Result<T, Refusal>,
) -> Result<T, Failure> {
    judge(bytes).map_err(|refusal| Failure::Refused {
        what: named(file).to_string(),
        refusal,
        more: padding(bytes, |part| judge(part).is_ok()),
    })
}

pub fn map_in(file: &str) -> Result<Map, Failure> {
    judged(file, &bytes_of(file)?, Map::from_image)
}

pub fn operation_in(file: &str) -> Result<Operation, Failure> {
    judged(file, &bytes_of(file)?, Operation::from_image)
}

/// A map or an operation in words: no image but the empty one is both, and that is a map.
pub fn shown(file: &str) -> Result<String, Failure> {
    let bytes = bytes_of(file)?;
    match Operation::from_image(&bytes) {
        Ok(operation) => Ok(operation.to_string()),
        Err(_) => judged(file, &bytes, Map::from_image).map(|map| map.to_string()),
    }
}

/// A file that waits to be written.
enum Pending {
    /// It is written under another name, and takes its own when nothing can go wrong any more.
    Renamed { written: PathBuf, target: PathBuf },
    /// Standard output, a device or a pipe.
    InPlace { file: String, bytes: Vec<u8> },
}

/// Writes images to files, `-` for standard output: all of them, or none where one cannot be written.
pub fn write_all(images: &[(&str, &[u8])]) -> Result<(), Failure> {
    let mut pending = Vec::new();
    let finished = prepare_all(images, &mut pending).and_then(|()| finish_all(&pending));
    if finished.is_err() {
        for file in &pending {
            if let Pending::Renamed { written, .. } = file {
                // what was renamed already is no longer there
                let _ = fs::remove_file(written);
            }
        }
    }
    finished
}

fn prepare_all(images: &[(&str, &[u8])], pending: &mut Vec<Pending>) -> Result<(), Failure> {
    for (file, bytes) in images {
        let prepared = prepare(file, bytes, pending)?;
        pending.push(prepared);
    }
    Ok(())
}

fn finish_all(pending: &[Pending]) -> Result<(), Failure> {
    // a pipe may be closed at the other end: before any file has its name
    for file in pending {
        if let Pending::InPlace { file, bytes } = file {
            match file.as_str() {
                "-" => print(bytes)?,
                _ => fs::write(file, bytes).map_err(|error| failed(file, &error))?,
            }
        }
    }
    for file in pending {
        if let Pending::Renamed { written, target } = file {
            let renamed = fs::rename(written, target);
            renamed.map_err(|error| failed(&target.to_string_lossy(), &error))?;
        }
    }
    Ok(())
}

fn failed(file: &str, error: &io::Error) -> Failure {
    Failure::Trouble(format!("{file}: {error}"))
}

fn prepare(file: &str, bytes: &[u8], before_it: &[Pending]) -> Result<Pending, Failure> {
    let in_place = Pending::InPlace { file: file.to_string(), bytes: bytes.to_vec() };
    if file == "-" {
        if io::stdout().is_terminal() {
            return trouble("an image is not for a terminal: name a file with -o");
        }
        return Ok(in_place);
    }
    let target = resolved(Path::new(file)).map_err(|error| failed(file, &error))?;
    let present = fs::metadata(&target).ok();
    if target.is_dir() {
        return trouble(format!("{file}: is a folder"));
    }
    if present.as_ref().is_some_and(|present| !present.is_file()) {
        return Ok(in_place);
    }
    if before_it.iter().any(|one| matches!(one, Pending::Renamed { target: t, .. } if *t == target))
    {
        return trouble(format!("the map and the operation can not both go to {file}"));
    }
    let written = beside(&target);
    let mut done = fs::write(&written, bytes);
    if let (Ok(()), Some(present)) = (&done, present) {
        done = fs::set_permissions(&written, present.permissions());
    }
    match done {
        Ok(()) => Ok(Pending::Renamed { written, target }),
        Err(error) => {
            let _ = fs::remove_file(&written);
            Err(failed(file, &error))
        }
    }
}

/// A file's path without links, of one that is not there yet too.
fn resolved(file: &Path) -> io::Result<PathBuf> {
    if let Ok(path) = fs::canonicalize(file) {
        return Ok(path);
    }
    let folder = match file.parent() {
        Some(folder) if folder != Path::new("") => folder,
        _ => Path::new("."),
    };
    Ok(fs::canonicalize(folder)?.join(file.file_name().unwrap_or_default()))
}

/// A name in the same folder that nothing else has.
fn beside(target: &Path) -> PathBuf {
    let mut name = target.file_name().unwrap_or_default().to_os_string();
    name.push(format!(".{}.new", std::process::id()));
    target.with_file_name(name)
}

/// Writes to standard output, which may be closed early.
pub fn print(bytes: &[u8]) -> Result<(), Failure> {
    let mut out = io::stdout().lock();
    out.write_all(bytes)
        .and_then(|()| out.flush())
        .map_err(|error| failed("standard output", &error))
}
