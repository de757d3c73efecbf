//! Random histories of three drives, whose operations come late, twice and in any order.

use crate::history::{compare, withdrawn_stands, Made, Settings, Told};
use crate::picture::picture;
use crate::rules::{Found, Merges, Rules, Seen};
use castribba::{Kept, Map};

const DRIVES: usize = 3;
const STEPS: usize = 40;

/// splitmix64
struct Random(u64);

impl Random {
    fn below(&mut self, bound: usize) -> usize {
        self.0 = self.0.wrapping_add(0x9E37_79B9_7F4A_7C15);
        let mut mixed = self.0;
        mixed = (mixed ^ (mixed >> 30)).wrapping_mul(0xBF58_476D_1CE4_E5B9);
        mixed = (mixed ^ (mixed >> 27)).wrapping_mul(0x94D0_49BB_1331_11EB);
        ((mixed ^ (mixed >> 31)) % bound as u64) as usize
    }
}

/// A drive: its map, and which operations of the history it has, and has not yet.
struct Drive {
    map: Map,
    has: Vec<usize>,
    mail: Vec<usize>,
}

struct Run<'a> {
    rules: Rules,
    random: &'a mut Random,
    keys: usize,
    history: Vec<Made>,
    drives: Vec<Drive>,
    seen: Seen,
    calls: u64,
}

pub fn search(rules: Rules, runs: u64, seed: u64) -> Found {
    let mut found = Found::new(rules);
    let mut random = Random(seed);
    for _ in 0..runs {
        let keys = 1 + random.below(4);
        let drives =
            (0..DRIVES).map(|_| Drive { map: Map::new(), has: vec![], mail: vec![] }).collect();
        let mut run = Run {
            rules,
            random: &mut random,
            keys,
            history: vec![],
            drives,
            seen: Seen::default(),
            calls: 0,
        };
        run.all();
        let (seen, calls, history) = (run.seen, run.calls, run.history);
        found.calls += calls;
        found.count(seen, Told(&history));
    }
    found
}

impl Run<'_> {
    fn all(&mut self) {
        for _ in 0..STEPS {
            let at = self.random.below(DRIVES);
            match self.random.below(8 + usize::from(self.rules.merges != Merges::Never)) {
                0..=2 => self.make_update(at),
                3 => self.make_removal(at),
                4..=6 => self.deliver(at),
                7 => self.removal_again(at),
                _ => self.merge(at),
            }
        }
        // what is left comes in any order; what is held, or refused for want of room, is tried again
        for at in 0..DRIVES {
            let mut idle = 0;
            while !self.drives[at].mail.is_empty() && idle < 1000 {
                let before = self.drives[at].mail.len();
                self.deliver(at);
                idle = if self.drives[at].mail.len() < before { 0 } else { idle + 1 };
            }
            assert!(self.drives[at].mail.is_empty(), "an operation was held to the end");
        }
        for at in 0..DRIVES {
            compare(&self.drives[0].map, &self.drives[at].map, &mut self.seen);
            self.judge(at);
        }
    }

    fn key(&mut self) -> u32 {
        5 + self.random.below(self.keys) as u32
    }

    /// Applies an operation; false where a limit refuses it, which leaves the map as it was.
    fn apply(&mut self, at: usize, place: usize) -> bool {
        self.calls += 1;
        self.drives[at].map.apply(&self.history[place].op).is_ok()
    }

    /// Its maker has it at once, the others find it in their mail.
    fn publish(&mut self, at: usize, made: Made) {
        let place = self.history.len();
        self.history.push(made);
        if !self.apply(at, place) {
            self.history.pop();
            return;
        }
        for drive in 0..DRIVES {
            if drive == at {
                self.drives[drive].has.push(place);
            } else {
                self.drives[drive].mail.push(place);
            }
        }
    }

    fn make_update(&mut self, at: usize) {
        let key = self.key();
        if let Ok(made) = Made::update(&self.drives[at].map, at as u16 + 1, key) {
            self.publish(at, made);
        }
    }

    fn make_removal(&mut self, at: usize) {
        let key = self.key();
        if let Ok(made) = Made::removal(self.rules, &self.drives[at].map, key) {
            self.publish(at, made);
        }
    }

    fn deliver(&mut self, at: usize) {
        let Drive { map, mail, .. } = &self.drives[at];
        if mail.is_empty() {
            return;
        }
        let in_mail = self.random.below(mail.len());
        let place = mail[in_mail];
        if !self.rules.allow(map, &self.history[place].op) || !self.apply(at, place) {
            return;
        }
        self.drives[at].mail.remove(in_mail);
        self.drives[at].has.push(place);
        self.judge(at);
    }

    /// The drive is handed another's map, and has then what both had, unless it keeps its own and asks.
    fn merge(&mut self, at: usize) {
        let from = self.random.below(DRIVES);
        let (theirs, known) = (self.drives[from].map.clone(), self.drives[from].has.clone());
        let Drive { map, has, mail } = &mut self.drives[at];
        let merged = match self.rules.merges {
            Merges::Chosen => map.merge_and_choose(&theirs).map(|kept| kept != Kept::OursAndAsk),
            _ => map.merge(&theirs).map(|()| true),
        };
        // a merge that a limit refuses was not made
        if merged == Ok(true) {
            let new: Vec<usize> = known.into_iter().filter(|place| !has.contains(place)).collect();
            mail.retain(|place| !new.contains(place));
            has.extend(new);
            self.judge(at);
        }
    }

    /// A removal that the drive has comes again.
    fn removal_again(&mut self, at: usize) {
        let has = &self.drives[at].has;
        let removals: Vec<usize> =
            has.iter().copied().filter(|place| self.history[*place].is_removal()).collect();
        if !removals.is_empty() {
            let place = removals[self.random.below(removals.len())];
            self.apply(at, place);
            self.judge(at);
        }
    }

    /// Whether the map is what its operations say.
    fn judge(&mut self, at: usize) {
        let Drive { map, has, .. } = &self.drives[at];
        let ops = has.iter().map(|place| &self.history[*place]);
        self.seen.withdrawn |= withdrawn_stands(map, ops.clone());
        self.seen.picture |= self.rules.kept() && Settings::of(map) != picture(ops);
    }
}
