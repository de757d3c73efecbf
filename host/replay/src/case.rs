//! One case of the file: a call with its inputs, and what must come out.

use oracle::image::records_of;
use std::fmt::Write as _;

/// The calls by their numbers in the file, and whether each answers a number of 01's.
pub const CALLS: [(&str, bool); 20] = [
    ("castribba_apply", true),
    ("castribba_merge", true),
    ("castribba_reset_remove", true),
    ("castribba_update", true),
    ("castribba_rm_get", true),
    ("castribba_rm_read_ctx", true),
    ("castribba_get", true),
    ("castribba_len", true),
    ("castribba_len_count", false),
    ("castribba_validate_op", true),
    ("castribba_validate_op_start", false),
    ("castribba_validate_op_end", false),
    ("castribba_validate_merge", true),
    ("castribba_validate_merge_actor", false),
    ("castribba_validate_merge_counter", false),
    ("castribba_validate_merge_our_key", false),
    ("castribba_validate_merge_their_key", false),
    ("castribba_clock_advance", true),
    ("castribba_apply_deleted", false),
    ("castribba_reset_remove_deleted", false),
];

/// The functions on maps by value that are asked beside a call, which is named by its place from 1.
pub const PLAIN_FORMS: [(&str, usize); 5] = [
    ("byvalue::apply", 1),
    ("byvalue::merge", 2),
    ("byvalue::reset_remove", 3),
    ("byvalue::counting::apply_deleted", 19),
    ("byvalue::counting::reset_remove_deleted", 20),
];

pub struct Case {
    /// The call's place in `CALLS`, from 1.
    pub call: usize,
    pub images: [Vec<u8>; 2],
    pub actor: u16,
    pub key: u32,
    pub value: u64,
    pub origin: u16,
    pub room: usize,
    pub number: u32,
    /// The length answered, or the word of a call that carries.
    pub length: u64,
    pub out: Vec<u8>,
}

/// The length in bytes, then a line for each record; what a cut one lacks is zero.
fn write_image(name: &str, image: &[u8], file: &mut String) {
    let mut whole = image.to_vec();
    whole.resize(image.len().next_multiple_of(16), 0);
    writeln!(file, "{name} {}", image.len()).unwrap();
    for r in records_of(&whole) {
        writeln!(file, "{} {} {} {} {}", r.kind, r.index, r.actor, r.key, r.number).unwrap();
    }
}

impl Case {
    pub fn write(&self, before: Option<&Case>, file: &mut String) {
        let fresh = before.map_or(true, |before| before.images != self.images);
        let name = CALLS[self.call - 1].0.trim_start_matches("castribba_");
        writeln!(
            file,
            "\n{} {name} {} {} {} {} {} {} {} {}",
            self.call,
            u8::from(fresh),
            self.actor,
            self.key,
            self.value,
            self.origin,
            self.room,
            self.number,
            self.length
        )
        .unwrap();
        if fresh {
            write_image("first", &self.images[0], file);
            write_image("second", &self.images[1], file);
        }
        write_image("out", &self.out, file);
    }
}
