//! The list setup: a case changes numbers of setup's arguments, which the next case goes on with, and sets up a new session.

use crate::{List, digest, number_of};
use oracle::blocks::SETUP_NUMBERS;
use oracle::generate::Random;
use oracle::record::{self, Reference};
use oracle::samples::{processors, usual_setup};
use oracle::{Call, Capabilities, Oracle, Setup, VMX_FLEX_CONTROLS};

/// A number of the arguments by its place, from 1 on in the order of the C interface's block, and its new value.
type Change = (usize, u64);
/// A case has as many changes at most.
const CHANGES: usize = 4;
/// After the numbers of setup: the byte that fills the frames.
const FILL: usize = SETUP_NUMBERS + 1;
/// The capability MSRs, by ascending number.
const CAPABILITIES: std::ops::Range<usize> = 25..39;
/// The first of them. Its bit 55 is set in every case: the original reads the TRUE words always.
const VMX_BASIC: usize = CAPABILITIES.start;
/// The pairs of pin, primary, secondary, exit and entry.
const PAIRS: [usize; 5] = [35, 36, 34, 37, 38];
/// RDTSCP, INVPCID, XSAVES.
const FLAGS: [usize; 3] = [40, 41, 42];
/// The fields of the five control words.
const CONTROL_WORDS: [u32; 5] = [0x4000, 0x4002, 0x401E, 0x400C, 0x4012];

#[derive(Clone, PartialEq, Eq)]
struct Arguments {
    numbers: [u64; SETUP_NUMBERS],
    fill: u8,
}

impl Arguments {
    fn at(&self, place: usize) -> u64 {
        if place == FILL { self.fill as u64 } else { self.numbers[place - 1] }
    }

    fn put(&mut self, (place, value): Change) {
        match place {
            FILL => self.fill = value as u8,
            _ => self.numbers[place - 1] = value,
        }
    }

    /// The five control words, a digest of the record, the sum of the frames' digests; or the refusal. None where document 01 says 6
    /// and the original finds it later or not at all.
    fn answer(&self) -> Option<Result<Vec<u64>, u32>> {
        let setup = Setup::of_numbers(&self.numbers);
        assert!(setup.vmx_basic & VMX_FLEX_CONTROLS != 0, "document 02 decides, and not the original");
        let mut oracle = Oracle::new();
        oracle.frames_mut().into_iter().for_each(|frame| frame.fill(self.fill));
        let outcome = oracle.setup(&setup).map_err(|failure| number_of(Call::Setup, &failure));
        if setup.capabilities.inconsistent() && outcome != Err(6) {
            return None;
        }
        let mut reference = Reference::default();
        reference.set_up(&setup);
        Some(outcome.map(|()| {
            let mut answer = CONTROL_WORDS.map(|encoding| oracle.read_field(encoding).expect("a field")).to_vec();
            answer.push(digest(&record::image(&oracle, &reference)));
            answer.push(oracle.frames().into_iter().map(|frame| digest(frame)).sum());
            answer
        }))
    }
}

struct Setups {
    list: List,
    now: Arguments,
    /// The last that were accepted.
    good: Arguments,
}

impl Setups {
    /// A case, unless the original does not decide it.
    fn add(&mut self, changes: &[Change]) {
        let mut next = self.now.clone();
        changes.iter().for_each(|&change| next.put(change));
        let Some(answer) = next.answer() else { return };
        if answer.is_ok() {
            self.good = next.clone();
        }
        self.now = next;
        let case: Vec<u64> = changes.iter().flat_map(|&(place, value)| [place as u64, value]).collect();
        self.list.add(&case, answer);
    }

    /// Brings all numbers to those of a setup, a few with each case.
    fn add_all(&mut self, setup: &Setup) {
        let all = (1..).zip(setup.numbers());
        let changes: Vec<Change> = all.filter(|&(place, value)| self.now.at(place) != value).collect();
        changes.chunks(CHANGES).for_each(|changes| self.add(changes));
    }

    /// Each bit of each pair: allowed-1 loses it, allowed-0 gets it, and both.
    fn add_broken_pairs(&mut self, capabilities: &Capabilities) {
        for (place, pair) in PAIRS.into_iter().zip(capabilities.pairs) {
            for bit in 0..32 {
                let (low, high) = (1 << bit, 1 << (bit + 32));
                let broken = [pair & !low & !high, pair | low | high, (pair | low) & !high];
                broken.into_iter().filter(|&value| value != pair).for_each(|value| self.add(&[(place, value)]));
            }
            self.add(&[(place, pair)]);
        }
    }

    /// What brings the numbers back to those that were accepted.
    fn back(&self) -> Vec<Change> {
        let changed = (1..=FILL).filter(|&place| self.now.at(place) != self.good.at(place));
        changed.map(|place| (place, self.good.at(place))).collect()
    }
}

/// A capability word or any other number, changed.
fn change(random: &mut Random) -> Change {
    let capability = CAPABILITIES.start + random.below(CAPABILITIES.len() as u64) as usize;
    let any = 1 + random.below(FILL as u64) as usize;
    let place = if random.chance(70) { capability } else { any };
    if place == FILL {
        return (FILL, random.below(256));
    }
    let mut setup = random.setup();
    if random.chance(30) {
        setup.capabilities = random.pick(&processors().each_ref()).clone();
    }
    let value = setup.numbers()[place - 1];
    match PAIRS.into_iter().position(|pair| pair == place) {
        Some(word) if random.chance(50) => (place, random.spoiled_pair(word, value)),
        _ => (place, value),
    }
}

pub fn list(random: &mut Random) -> List {
    let zeros = Arguments { numbers: [0; SETUP_NUMBERS], fill: 0 };
    let mut setups = Setups { list: List::default(), now: zeros.clone(), good: zeros };
    let usual = usual_setup();
    setups.add(&[(VMX_BASIC, usual.vmx_basic)]);
    setups.add_all(&usual);
    let any = Setup { capabilities: usual.capabilities.clone(), ..random.setup() };
    setups.add_all(&any);
    for flags in 0..8 {
        setups.add(&[0, 1, 2].map(|i| (FLAGS[i], flags >> i & 1)));
    }
    setups.add_broken_pairs(&usual.capabilities);
    for capabilities in processors() {
        setups.add_all(&Setup { capabilities, ..any.clone() });
    }
    while setups.list.has_room() {
        let mut changes = setups.back();
        changes.extend((0..1 + random.below(2)).map(|_| change(random)));
        setups.add(&changes[..changes.len().min(CHANGES)]);
    }
    setups.list
}
