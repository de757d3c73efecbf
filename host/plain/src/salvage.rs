//! Salvage of a damaged image, as salvage.h has it: one walk for each step, marks by place, nothing allocated.

use crate::calls::word;
use crate::image::{
    records, Record, ENTRY_DOT, MAP_CLOCK_DOT, RECORD_LENGTH, VALUE, VALUE_DOT, WAITING_DOT,
    WAITING_KEY,
};
use crate::number;
use crate::{Clock, LONGEST_MAP, MOST_DOTS, MOST_ENTRIES, MOST_KEYS, MOST_VALUES, MOST_WAITING};

const RECORDS: usize = LONGEST_MAP / RECORD_LENGTH;
/// Bytes of a record in the report.
const TOLD: usize = 5;

/// A place's mark: the step that took it, or `STAYS`.
const STAYS: u8 = 0;

fn record_at(bytes: &[u8], start: usize) -> Record {
    let bytes = &bytes[start..start + RECORD_LENGTH];
    Record::read(bytes.try_into().expect("as long as a record"))
}

struct Marks<'a> {
    image: &'a [u8],
    len: usize,
    gone: [u8; RECORDS],
    index: [u8; RECORDS],
}

/// The waiting removals that step 4 keeps, by input index.
struct Waiting {
    indexes: [u8; MOST_WAITING],
    clocks: [Clock; MOST_WAITING],
    len: usize,
}

impl Waiting {
    fn slot(&self, index: u8) -> Option<usize> {
        self.indexes[..self.len].iter().position(|held| *held == index)
    }

    /// The first slot with the same clock.
    fn lead(&self, slot: usize) -> usize {
        (0..slot).find(|other| self.clocks[*other] == self.clocks[slot]).unwrap_or(slot)
    }

    /// How many different clocks are below a slot's.
    fn rank(&self, slot: usize) -> usize {
        let below = |other: &usize| {
            let order = self.clocks[*other].list_order(&self.clocks[slot]);
            self.lead(*other) == *other && order.is_lt()
        };
        (0..self.len).filter(below).count()
    }
}

impl Marks<'_> {
    fn at(&self, place: usize) -> Record {
        record_at(self.image, place * RECORD_LENGTH)
    }

    fn stays(&self, place: usize) -> bool {
        self.gone[place] == STAYS
    }

    /// Steps 2 and 3.
    fn keep_order(&mut self) {
        let mut last = 0;
        for (place, record) in records(self.image).enumerate() {
            let known = (MAP_CLOCK_DOT..=WAITING_KEY).contains(&record.kind);
            self.index[place] = record.index;
            if !known || !record.is_well_formed() {
                self.gone[place] = 2;
            } else if record.place() <= last {
                self.gone[place] = 3;
            } else {
                last = record.place();
            }
        }
    }

    /// Step 4, and the new indexes of values: records stand in order, so that each walk goes forward only.
    fn keep_needed(&mut self, waiting: &mut Waiting) {
        let mut clock = Clock::EMPTY;
        let mut keys = [0; MOST_ENTRIES];
        let mut key_count = 0;
        // the values that stay: key, index, and the index that they take
        let mut values = [(0u32, 0u8, 0u8); MOST_ENTRIES * MOST_VALUES];
        let mut value_count = 0;
        let mut dot_place = 0;
        let mut value_place = 0;
        let mut dot_counts = [0; MOST_ENTRIES * MOST_VALUES];
        let mut dots = 0;
        let mut key_counts = [0; MOST_WAITING];
        for place in 0..self.len {
            if !self.stays(place) {
                continue;
            }
            let record = self.at(place);
            let own = (record.key, record.index);
            let stays = match record.kind {
                MAP_CLOCK_DOT => {
                    clock.dots().len() < MOST_DOTS && {
                        clock.add(record.dot());
                        true
                    }
                }
                ENTRY_DOT => {
                    let seen = record.number <= clock.counter(record.actor);
                    if key_count > 0 && keys[key_count - 1] == record.key {
                        seen && dots < MOST_DOTS && {
                            dots += 1;
                            true
                        }
                    } else {
                        seen && key_count < MOST_ENTRIES && {
                            keys[key_count] = record.key;
                            key_count += 1;
                            dots = 1;
                            true
                        }
                    }
                }
                VALUE => {
                    while dot_place < self.len && self.comes_before_dots(dot_place, own) {
                        dot_place += 1;
                    }
                    let has_dot = dot_place < self.len && self.is_dot_of(dot_place, own);
                    let has_entry = keys[..key_count].binary_search(&record.key).is_ok();
                    let beside = values[..value_count].iter().rev();
                    let beside = beside.take_while(|value| value.0 == record.key).count();
                    has_dot && has_entry && beside < MOST_VALUES && {
                        values[value_count] = (record.key, record.index, beside as u8);
                        value_count += 1;
                        self.index[place] = beside as u8;
                        true
                    }
                }
                VALUE_DOT => {
                    let place_of = |at: usize| (values[at].0, values[at].1);
                    while value_place < value_count && place_of(value_place) < own {
                        value_place += 1;
                    }
                    value_place < value_count && place_of(value_place) == own && {
                        self.index[place] = values[value_place].2;
                        dot_counts[value_place] += 1;
                        dot_counts[value_place] <= MOST_DOTS
                    }
                }
                WAITING_DOT => match waiting.slot(record.index) {
                    Some(slot) => {
                        waiting.clocks[slot].dots().len() < MOST_DOTS && {
                            waiting.clocks[slot].add(record.dot());
                            true
                        }
                    }
                    None => {
                        waiting.len < MOST_WAITING && {
                            waiting.indexes[waiting.len] = record.index;
                            waiting.clocks[waiting.len].add(record.dot());
                            waiting.len += 1;
                            true
                        }
                    }
                },
                _ => waiting.slot(record.index).is_some_and(|slot| {
                    key_counts[slot] += 1;
                    key_counts[slot] <= MOST_KEYS
                }),
            };
            if !stays {
                self.gone[place] = 4;
            }
        }
    }

    /// Whether a place holds something that stands before the dots of a value, or went already.
    fn comes_before_dots(&self, place: usize, value: (u32, u8)) -> bool {
        let record = self.at(place);
        !self.left_by_order(place)
            || record.kind < VALUE_DOT
            || record.kind == VALUE_DOT && (record.key, record.index) < value
    }

    fn is_dot_of(&self, place: usize, value: (u32, u8)) -> bool {
        let record = self.at(place);
        record.kind == VALUE_DOT && (record.key, record.index) == value
    }

    fn left_by_order(&self, place: usize) -> bool {
        !matches!(self.gone[place], 2 | 3)
    }

    /// Step 5 of what waits: equal clocks are united, and the others take the index of their order.
    fn unite(&mut self, waiting: &Waiting) {
        let mut leads = [0; MOST_WAITING];
        let mut ranks = [0; MOST_WAITING];
        for slot in 0..waiting.len {
            leads[slot] = waiting.lead(slot);
            ranks[slot] = waiting.rank(slot) as u8;
        }
        // the last key that a united removal keeps, and how many: keys come ascending
        let mut last = [None; MOST_WAITING];
        let mut counts = [0; MOST_WAITING];
        for place in 0..self.len {
            let record = self.at(place);
            if !self.stays(place) || record.kind < WAITING_DOT {
                continue;
            }
            let slot = waiting.slot(record.index).expect("step 4 keeps no other");
            let lead = leads[slot];
            let stays = if record.kind == WAITING_DOT {
                lead == slot
            } else {
                last[lead] != Some(record.key) && counts[lead] < MOST_KEYS && {
                    last[lead] = Some(record.key);
                    counts[lead] += 1;
                    true
                }
            };
            if stays {
                self.index[place] = ranks[slot];
            } else {
                self.gone[place] = 5;
            }
        }
    }

    fn of(image: &[u8]) -> Result<Marks<'_>, u32> {
        if image.len() > LONGEST_MAP {
            return Err(number::IMAGE_OVER_LIMIT);
        }
        let len = image.len() / RECORD_LENGTH;
        let mut marks = Marks { image, len, gone: [STAYS; RECORDS], index: [0; RECORDS] };
        let mut waiting =
            Waiting { indexes: [0; MOST_WAITING], clocks: [Clock::EMPTY; MOST_WAITING], len: 0 };
        marks.keep_order();
        marks.keep_needed(&mut waiting);
        marks.unite(&waiting);
        Ok(marks)
    }

    /// What is told of a place: 0 for nothing.
    fn step(&self, place: usize) -> u8 {
        let changed = self.stays(place) && self.index[place] != self.at(place).index;
        if changed {
            5
        } else {
            self.gone[place]
        }
    }
}

pub fn castribba_salvage(image: &[u8], out: &mut [u8]) -> u64 {
    word(|| {
        let marks = Marks::of(image)?;
        let kept = (0..marks.len).filter(|place| marks.stays(*place)).count();
        let length = kept * RECORD_LENGTH;
        let room = out.get_mut(..length).ok_or(number::SHORT_BUFFER)?;
        let mut written = 0;
        for place in (0..marks.len).filter(|place| marks.stays(*place)) {
            let record = Record { index: marks.index[place], ..marks.at(place) };
            // only what waits can stand behind one that it belongs before: it is moved down to its place
            let mut to = written;
            while to > 0 && record.place() < record_at(room, to - RECORD_LENGTH).place() {
                room.copy_within(to - RECORD_LENGTH..to, to);
                to -= RECORD_LENGTH;
            }
            record.write(&mut room[to..to + RECORD_LENGTH]);
            written += RECORD_LENGTH;
        }
        Ok(length)
    })
}

pub fn castribba_salvage_report(image: &[u8], out: &mut [u8]) -> u64 {
    word(|| {
        let marks = Marks::of(image)?;
        let partial = image.len() % RECORD_LENGTH != 0;
        let told = (0..marks.len).filter(|place| marks.step(*place) != STAYS).count();
        let length = (told + usize::from(partial)) * TOLD;
        let room = out.get_mut(..length).ok_or(number::SHORT_BUFFER)?;
        let mut rows = room.chunks_exact_mut(TOLD);
        let mut tell = |place: usize, step: u8| {
            let row = rows.next().expect("as many rows as are told");
            row[..4].copy_from_slice(&(place as u32).to_le_bytes());
            row[4] = step;
        };
        for place in 0..marks.len {
            match marks.step(place) {
                STAYS => {}
                step => tell(place, step),
            }
        }
        if partial {
            tell(marks.len, 1);
        }
        Ok(length)
    })
}
