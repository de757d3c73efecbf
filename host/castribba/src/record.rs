//! A record of an image, and its kinds.

use core::fmt;

/// The kinds of records: 1 to 6 make a map, 1 alone a clock, 7 to 12 an operation.
pub mod kind {
    /// Actor and counter: the map has seen so many updates of this actor.
    pub const CLOCK_DOT: u8 = 1;
    /// Key, actor and counter: an update of this key that was not removed.
    pub const ENTRY_DOT: u8 = 2;
    /// Key, index and value, with its origin in the actor's place.
    pub const VALUE: u8 = 3;
    /// Key, index, actor and counter: what the writer of that value had seen.
    pub const VALUE_DOT: u8 = 4;
    /// Index, actor and counter: the clock of a removal that waits.
    pub const WAITING_DOT: u8 = 5;
    /// Index and key: a key that it removes.
    pub const WAITING_KEY: u8 = 6;
    /// The head of a removal.
    pub const REMOVAL: u8 = 7;
    /// Actor and counter: its clock.
    pub const REMOVAL_DOT: u8 = 8;
    /// A key that it removes.
    pub const REMOVAL_KEY: u8 = 9;
    /// The head of an update: its key, and its dot as actor and counter.
    pub const UPDATE: u8 = 10;
    /// The value that it puts, with its origin in the actor's place.
    pub const PUT_VALUE: u8 = 11;
    /// Actor and counter: what the writer had seen, this update included.
    pub const PUT_DOT: u8 = 12;
}

/// One record of an image: 16 bytes, as docs/FORMAT.md lays them out.
#[derive(Clone, Copy, Debug, PartialEq, Eq, Hash)]
pub struct Record {
    /// One of [`kind`]'s.
    pub kind: u8,
    /// Which value of a key, or which waiting removal, from 0.
    pub index: u8,
    /// An actor; of a value, its origin.
    pub actor: u16,
    pub key: u32,
    /// A counter, or a value.
    pub number: u64,
}

impl Record {
    /// The bytes of a record.
    pub const BYTES: usize = 16;

    /// The record's bytes.
    pub fn to_bytes(self) -> [u8; Record::BYTES] {
        let mut bytes = [0; Record::BYTES];
        bytes[0] = self.kind;
        bytes[1] = self.index;
        bytes[2..4].copy_from_slice(&self.actor.to_le_bytes());
        bytes[4..8].copy_from_slice(&self.key.to_le_bytes());
        bytes[8..].copy_from_slice(&self.number.to_le_bytes());
        bytes
    }

    /// The record that these bytes are.
    pub fn from_bytes(bytes: [u8; Record::BYTES]) -> Record {
        let [kind, index, a0, a1, k0, k1, k2, k3, number @ ..] = bytes;
        Record {
            kind,
            index,
            actor: u16::from_le_bytes([a0, a1]),
            key: u32::from_le_bytes([k0, k1, k2, k3]),
            number: u64::from_le_bytes(number),
        }
    }

    /// The whole records of an image, in order.
    pub fn all_of(image: &[u8]) -> impl Iterator<Item = Record> + '_ {
        image.chunks_exact(Record::BYTES).map(|chunk| {
            Record::from_bytes(chunk.try_into().expect("a chunk has the length of a record"))
        })
    }
}

impl fmt::Display for Record {
    /// Kind, index, actor, key and number.
    fn fmt(&self, f: &mut fmt::Formatter<'_>) -> fmt::Result {
        let Record { kind, index, actor, key, number } = self;
        write!(f, "{kind} {index} {actor} {key} {number}")
    }
}
