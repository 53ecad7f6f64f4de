//! `vcpu_set_control` against the original's `set_control`.

use crate::archive;
use crate::tally::{Tally, Totals};
use oracle::generate::Random;
use oracle::{Call, leaves, refusal_number};

/// What the word and its neighbours hold before the call.
const BEFORE: [u32; 3] = [0x0123_4567, 0x89AB_CDEF, 0x5555_AAAA];

fn compare(tally: &mut Tally, words: [u32; 5]) {
    let Some(vcpu_set_control) = archive::vcpu_set_control() else { return };
    let [allowed0, allowed1, old, set, clear] = words;
    let (number, word) = match leaves::set_control(allowed0, allowed1, old, set, clear) {
        Ok(word) => (0, word),
        Err(failure) => (refusal_number(Call::ControlWord, &failure).expect("a number"), BEFORE[1]),
    };
    let mut memory = BEFORE;
    let pointer = &raw mut memory[1];
    let answer = unsafe { vcpu_set_control(allowed0, allowed1, old, set, clear, pointer) };
    let expected = [BEFORE[0], word, BEFORE[2]];
    tally.compare(answer == number && memory == expected, || {
        format!("{words:x?}: rust {number} {expected:x?}, port {answer} {memory:x?}")
    });
}

pub fn run(random: &mut Random, cases: u64, totals: &mut Totals) {
    let mut tally = Tally::new("vcpu_set_control");
    // Every combination of one bit.
    for bit in 0..32 {
        for which in 0..32 {
            compare(&mut tally, [0, 1, 2, 3, 4].map(|i| (which >> i & 1) << bit));
        }
    }
    for _ in 0..cases {
        let words = if random.chance(80) { random.control_words() } else { [(); 5].map(|()| random.word32()) };
        compare(&mut tally, words);
    }
    totals.add(tally);
}
