//! Document 01's settled examples W1 to W12, written out by hand: they lean on no oracle.

use calls::{length_of, number_of, Calls, LONGEST_MAP};

type Line = (u8, u8, u16, u32, u64);

fn image(lines: &[Line]) -> Vec<u8> {
    let mut bytes = Vec::new();
    for (kind, index, actor, key, number) in lines {
        bytes.extend([*kind, *index]);
        bytes.extend(actor.to_le_bytes());
        bytes.extend(key.to_le_bytes());
        bytes.extend(number.to_le_bytes());
    }
    bytes
}

const M: [Line; 4] = [(1, 0, 1, 0, 1), (2, 0, 1, 5, 1), (3, 0, 0, 5, 40), (4, 0, 1, 5, 1)];

struct Examples<'a> {
    calls: &'a dyn Calls,
    failed: u32,
}

impl Examples<'_> {
    fn is(&mut self, name: &str, answer: (u32, Vec<u8>), number: u32, lines: &[Line]) {
        if answer != (number, image(lines)) {
            println!("DIFFERENCE in {name}: {answer:?}");
            self.failed += 1;
        }
    }

    fn out(&self, run: impl Fn(&dyn Calls, &mut [u8]) -> u64) -> (u32, Vec<u8>) {
        let mut out = vec![0xEE; LONGEST_MAP];
        let word = run(self.calls, &mut out);
        out.truncate(length_of(word));
        (number_of(word), out)
    }

    fn apply(&self, map: &[Line], op: &[Line]) -> (u32, Vec<u8>) {
        self.out(|calls, out| calls.apply(&image(map), &image(op), out))
    }
}

/// How many of the examples the implementation fails.
pub fn failed_examples(calls: &dyn Calls) -> u32 {
    let mut examples = Examples { calls, failed: 0 };
    let waiting_5 = [(1, 0, 1, 0, 1), (5, 0, 1, 0, 2), (6, 0, 0, 5, 0)];

    let answer = examples.apply(&M, &[(7, 0, 0, 0, 0), (8, 0, 1, 0, 1), (9, 0, 0, 5, 0)]);
    examples.is("W1", answer, 0, &M[..1]);
    let answer = examples.apply(&M, &[(7, 0, 0, 0, 0), (8, 0, 1, 0, 2), (9, 0, 0, 5, 0)]);
    examples.is("W2", answer, 0, &waiting_5);
    let update = [(10, 0, 1, 5, 2), (11, 0, 0, 0, 41), (12, 0, 1, 0, 2)];
    let answer = examples.apply(&waiting_5, &update);
    examples.is("W3", answer, 0, &[(1, 0, 1, 0, 2)]);
    let answer = examples.apply(&M, &[(10, 0, 1, 5, 1), (11, 0, 0, 0, 41), (12, 0, 1, 0, 1)]);
    examples.is("W4", answer, 0, &M);
    let answer = examples.apply(&M, &[(7, 0, 0, 0, 0), (9, 0, 0, 5, 0)]);
    examples.is("W5", answer, 0, &M);
    let answer = examples.apply(&M, &[(7, 0, 0, 0, 0), (8, 0, 2, 0, 1)]);
    examples.is("W6", answer, 0, &[M[0], M[1], M[2], M[3], (5, 0, 2, 0, 1)]);

    let both = |actor| image(&[(1, 0, 1, 0, 1), (1, 0, 2, 0, 1), (2, 0, actor, 5, 1)]);
    let answer = examples.out(|calls, out| calls.merge(&both(1), &both(2), out));
    examples.is("W7", answer, 0, &[(1, 0, 1, 0, 1), (1, 0, 2, 0, 1)]);

    let two_waiting = image(&[
        (5, 0, 1, 0, 4),
        (5, 0, 2, 0, 1),
        (5, 1, 1, 0, 5),
        (5, 1, 2, 0, 1),
        (6, 1, 0, 5, 0),
        (6, 0, 0, 6, 0),
    ]);
    let by = image(&[(1, 0, 1, 0, 5)]);
    let answer = examples.out(|calls, out| calls.reset_remove(&two_waiting, &by, out));
    examples.is("W8", answer, 0, &[(5, 0, 2, 0, 1), (6, 0, 0, 5, 0), (6, 0, 0, 6, 0)]);

    let mut full = vec![(1, 0, 1, 0, 32)];
    full.extend((1..=32).map(|key| (2, 0, 1, key, u64::from(key))));
    let update = [(10, 0, 9, 77, 1), (11, 0, 0, 0, 7), (12, 0, 9, 0, 1)];
    let answer = examples.apply(&full, &update);
    examples.is("W9 without the waiting removal", answer, 5, &[]);
    let mut waiting = full.clone();
    waiting.extend([(5, 0, 9, 0, 1), (6, 0, 0, 77, 0)]);
    let mut after = full.clone();
    after.insert(1, (1, 0, 9, 0, 1));
    let answer = examples.apply(&waiting, &update);
    examples.is("W9", answer, 0, &after);

    let (map, op) = (image(&M), image(&[(10, 0, 1, 6, 2), (11, 0, 0, 0, 0)]));
    let range = (
        calls.validate_op(&map, &op),
        calls.validate_op_start(&map, &op),
        calls.validate_op_end(&map, &op),
    );
    if range != (11 << 32, 1, 2) {
        println!("DIFFERENCE in W10: {range:?}");
        examples.failed += 1;
    }

    let spent = image(&[(1, 0, 1, 0, u64::MAX)]);
    let answer = examples.out(|calls, out| calls.update(&spent, 1, 5, 7, 0, out));
    examples.is("W11", answer, 9, &[]);

    // a register stands in an entry here, and the put comes with an unseen dot of actor 2
    let register = [(1, 0, 1, 0, 1), (2, 0, 1, 5, 1), (3, 0, 0, 5, 7), (4, 0, 1, 5, 1)];
    let answer = examples.apply(&register, &[(10, 0, 2, 5, 1), (11, 0, 0, 0, 8), (12, 0, 1, 0, 1)]);
    let after = [
        (1, 0, 1, 0, 1),
        (1, 0, 2, 0, 1),
        (2, 0, 1, 5, 1),
        (2, 0, 2, 5, 1),
        (3, 0, 0, 5, 8),
        (4, 0, 1, 5, 1),
    ];
    examples.is("W12", answer, 0, &after);

    update_across_removal(&mut examples);
    origins(&mut examples);
    examples.failed
}

/// 02's words on origins: the code moves with its value, and a second record for one value is malformed.
fn origins(examples: &mut Examples) {
    let set = [(10, 0, 1, 5, 1), (11, 0, 0x0201, 0, 40), (12, 0, 1, 0, 1)];
    let answer = examples.out(|calls, out| calls.update(&[], 1, 5, 40, 0x0201, out));
    examples.is("an update with an origin", answer, 0, &set);
    let mut set_map = M;
    set_map[2] = (3, 0, 0x0201, 5, 40);
    let answer = examples.apply(&[], &set);
    examples.is("its put", answer, 0, &set_map);
    let without = &set_map[..1];
    let answer = examples.out(|calls, out| calls.merge(&image(&set_map), &image(&M), out));
    examples.is("a merge with the same clocks keeps ours", answer, 0, &set_map);
    let answer = examples.out(|calls, out| calls.merge(&image(&M), &image(&set_map), out));
    examples.is("a merge with the same clocks, from the other side", answer, 0, &M);
    let answer = examples.out(|calls, out| calls.merge(&image(&set_map), &image(without), out));
    examples.is("a merge with one that has removed it", answer, 0, without);
    for (one, another) in [(0, 1), (1, 0), (1, 1)] {
        let twice = [M[0], M[1], (3, 0, one, 5, 40), (3, 0, another, 5, 40), M[3]];
        let answer = examples.apply(&twice, &set);
        examples.is("two records for one value", answer, 1, &[]);
        let twice = [set[0], (11, 0, one, 0, 40), (11, 0, another, 0, 40), set[2]];
        let answer = examples.apply(&M, &twice);
        examples.is("two records for one put", answer, 1, &[]);
    }
}

/// 01's first error that looks right: an update and a removal of its key do not cross.
fn update_across_removal(examples: &mut Examples) {
    let map = [
        (1, 0, 1, 0, 1),
        (1, 0, 2, 0, 1),
        (2, 0, 1, 5, 1),
        (3, 0, 0, 5, 7),
        (4, 0, 1, 5, 1),
        (4, 0, 2, 5, 1),
    ];
    let update = image(&[(10, 0, 3, 5, 1), (11, 0, 0, 0, 9), (12, 0, 3, 0, 1)]);
    let removal = image(&[(7, 0, 0, 0, 0), (8, 0, 1, 0, 1), (9, 0, 0, 5, 0)]);
    let both = |first: &[u8], second: &[u8]| {
        let (_, between) = examples.out(|calls, out| calls.apply(&image(&map), first, out));
        examples.out(|calls, out| calls.apply(&between, second, out))
    };
    let clock = [(1, 0, 1, 0, 1), (1, 0, 2, 0, 1), (1, 0, 3, 0, 1), (2, 0, 3, 5, 1)];
    let (two, one) = (both(&update, &removal), both(&removal, &update));
    let two_values = [(3, 0, 0, 5, 7), (3, 1, 0, 5, 9), (4, 0, 2, 5, 1), (4, 1, 3, 5, 1)];
    let one_value = [(3, 0, 0, 5, 9), (4, 0, 3, 5, 1)];
    examples.is("update, then removal", two, 0, &[&clock[..], &two_values].concat());
    examples.is("removal, then update", one, 0, &[&clock[..], &one_value].concat());
}
