//! Every small history, and every order of it.

use crate::history::{compare, withdrawn_stands, Made, Settings, Told};
use crate::picture::picture;
use crate::rules::{Found, Rules, Seen};
use castribba::Map;
use std::collections::HashSet;

const ACTORS: u16 = 3;
const KEYS: [u32; 2] = [5, 6];

/// The maps that some order of some of a history's operations ends in; a set of operations has a bit for each.
type Maps = Vec<HashSet<Map>>;

struct Search {
    rules: Rules,
    most: usize,
    /// Histories that were met, as sets: the order in which concurrent operations were made makes no other.
    met: HashSet<Vec<Vec<u8>>>,
    found: Found,
}

pub fn search(rules: Rules, most: usize) -> Found {
    let mut search = Search { rules, most, met: HashSet::new(), found: Found::new(rules) };
    search.grow(&mut Vec::new(), vec![HashSet::from([Map::new()])]);
    search.found
}

fn within(set: usize, history: &[Made]) -> impl Iterator<Item = &Made> + Clone {
    history.iter().enumerate().filter(move |(place, _)| set >> place & 1 == 1).map(|(_, made)| made)
}

impl Search {
    fn applied(&mut self, map: &Map, made: &Made) -> Option<Map> {
        if !self.rules.allow(map, &made.op) {
            return None;
        }
        let mut after = map.clone();
        after.apply(&made.op).expect("a small history is within the limits");
        self.found.calls += 1;
        Some(after)
    }

    /// The maps of a history that has one operation more. A removal may come again at any time.
    fn maps(&mut self, history: &[Made], before: &Maps) -> Maps {
        let newest = history.len() - 1;
        let mut maps = before.clone();
        maps.resize(1 << history.len(), HashSet::new());
        for set in 1 << newest..1 << history.len() {
            let without = (0..history.len()).filter(|place| set >> place & 1 == 1);
            let mut left: Vec<Map> = Vec::new();
            for place in without {
                for map in maps[set & !(1 << place)].clone() {
                    left.extend(self.applied(&map, &history[place]));
                }
            }
            while let Some(map) = left.pop() {
                if !maps[set].insert(map.clone()) {
                    continue;
                }
                for made in within(set, history).filter(|made| made.is_removal()) {
                    left.extend(self.applied(&map, made));
                }
            }
        }
        maps
    }

    fn judge(&self, history: &[Made], maps: &Maps) -> Seen {
        let mut seen = Seen::default();
        for (set, maps) in maps.iter().enumerate() {
            let Some(one) = maps.iter().next() else { continue };
            for other in maps {
                compare(one, other, &mut seen);
                seen.withdrawn |= withdrawn_stands(other, within(set, history));
            }
            seen.picture |= self.rules.kept() && Settings::of(one) != picture(within(set, history));
        }
        seen
    }

    /// Every operation that could be made next, by an actor on a map that has all its own.
    fn next_operations(&self, history: &[Made], maps: &Maps) -> Vec<Made> {
        let mut made: Vec<Made> = Vec::new();
        let mut offers = |one: Made| {
            if made.iter().all(|other| other.op != one.op || other.meant != one.meant) {
                made.push(one);
            }
        };
        // up to their names: a new actor is the next one, and so is a new key
        let actors =
            history.iter().filter_map(|made| made.op.dot()).map(|dot| dot.0).max().unwrap_or(0) + 1;
        let keys =
            history.iter().map(|made| made.key - KEYS[0] + 1).max().unwrap_or(0) as usize + 1;
        for (set, maps) in maps.iter().enumerate() {
            for actor in 1..=actors.min(ACTORS) {
                let own = |made: &Made| made.op.dot().is_some_and(|dot| dot.0 == actor);
                if history.iter().filter(|made| own(made)).count()
                    != within(set, history).filter(|made| own(made)).count()
                {
                    continue;
                }
                for map in maps {
                    for &key in KEYS.iter().take(keys) {
                        offers(Made::update(map, actor, key).expect("a small clock"));
                    }
                }
            }
            for map in maps {
                for key in map.keys() {
                    offers(Made::removal(self.rules, map, key).expect("a small clock"));
                }
            }
        }
        made
    }

    fn grow(&mut self, history: &mut Vec<Made>, maps: Maps) {
        if history.len() == self.most {
            return;
        }
        for made in self.next_operations(history, &maps) {
            history.push(made);
            let mut images: Vec<Vec<u8>> =
                history.iter().map(|made| made.op.as_image().to_vec()).collect();
            images.sort_unstable();
            if self.met.insert(images) {
                let grown = self.maps(history, &maps);
                let seen = self.judge(history, &grown);
                self.found.count(seen, Told(history));
                self.grow(history, grown);
            }
            history.pop();
        }
    }
}
