//! `vcpu_setup` against the original's setup: the number, every byte of the record and of the three frames.
//!
//! The original's pairs are tested one by one, its fixed bits not at all, and it has no records, phases and lengths: what document 01
//! says of these is compared on a line of its own, and so are host words that the original can't take.
//!
//! The original reads the TRUE words always. Where bit 55 of IA32_VMX_BASIC is clear document 02 decides (N4): the port must do what the original does
//! when it finds the plain words in the TRUE MSRs, whatever the block has for TRUE words. This has a line of its own too.

use crate::archive;
use crate::buffer::Buffer;
use crate::calls::{self, BYTES_REFUSED, Call, PHASE_REFUSED, Reply};
use crate::choose;
use crate::session::Session;
use crate::tally::{Tally, Totals};
use oracle::blocks::{SETUP_BYTES, SETUP_FLAGS};
use oracle::generate::Random;
use oracle::record::{self, LENGTH};
use oracle::samples::{processors, usual_setup};
use oracle::{Call as Original, Capabilities, FRAME_BYTES, Setup, VMX_FLEX_CONTROLS, refusal_number};

const PAIR_REFUSED: u32 = 6;
const HOST_CR3: u32 = 0x6C02;
const HOST_TR: u32 = 0x0C0C;
const CR3_FRAME: u64 = 0x000F_FFFF_FFFF_F000;
/// Among the pairs: of it there is no TRUE word.
const SECONDARY: usize = 2;
/// What the capability words can bring, 0 being an accepted setup.
const WORD_NUMBERS: [u32; 4] = [0, 6, 8, 9];

/// Record, arguments, I/O A, I/O B and MSR.
const LENGTHS: [usize; 5] = [LENGTH, SETUP_BYTES, FRAME_BYTES, FRAME_BYTES, FRAME_BYTES];

struct Sides {
    session: Session,
    /// The five buffers, each with room for a wrong length.
    ours: [Buffer; 5],
    inside: Tally,
    outside: Tally,
    plain: Tally,
}

/// The setup whose TRUE words are those that document 02 says are used: the plain ones where bit 55 of IA32_VMX_BASIC is clear.
pub fn used(setup: &Setup) -> Setup {
    let mut used = setup.clone();
    if setup.vmx_basic & VMX_FLEX_CONTROLS == 0 {
        let [pin, primary, exit, entry] = setup.capabilities.plain;
        let secondary = setup.capabilities.pairs[SECONDARY];
        used.capabilities.pairs = [pin, primary, secondary, exit, entry];
    }
    used
}

/// The setup on a board without the TRUE words: its pairs are in the plain words, and anything may stand in the TRUE ones.
pub fn older_board(random: &mut Random, setup: &Setup) -> Setup {
    let mut older = setup.clone();
    older.vmx_basic &= !VMX_FLEX_CONTROLS;
    let [pin, primary, secondary, exit, entry] = setup.capabilities.pairs;
    older.capabilities.plain = [pin, primary, exit, entry];
    let usual = random.pick(&processors().each_ref()).pairs;
    older.capabilities.pairs = usual.map(|pair| {
        let any = random.word();
        random.pick(&[0, pair, any, any])
    });
    older.capabilities.pairs[SECONDARY] = secondary;
    older
}

/// The setup that the original can be asked: CR3 is a frame, and the TR selector has a following descriptor.
fn askable(setup: &Setup) -> Setup {
    let mut asked = setup.clone();
    asked.host.cr3 &= CR3_FRAME;
    asked.host.tr %= 8191 * 8;
    asked
}

impl Sides {
    fn new() -> Self {
        Sides {
            session: Session::new(),
            ours: LENGTHS.map(|length| Buffer::new(2 * length)),
            inside: Tally::new("vcpu_setup"),
            outside: Tally::new("vcpu_setup, refusals and host words (document 01)"),
            plain: Tally::new("vcpu_setup, plain words (document 02)"),
        }
    }

    /// The line of a setup, which the original was asked or not.
    fn line(&mut self, setup: &Setup, asked: bool) -> &mut Tally {
        match setup.vmx_basic & VMX_FLEX_CONTROLS {
            0 => &mut self.plain,
            _ if asked => &mut self.inside,
            _ => &mut self.outside,
        }
    }

    /// A fresh session on both sides: new, or with anything written to it before; frames of any bytes.
    fn start(&mut self, random: &mut Random) {
        self.session.start_new();
        if random.chance(50) {
            self.session.oracle.put(&choose::state(random));
            self.session.reference = choose::reference(random);
            self.session.reference.phase = record::FRESH;
            for word in self.session.oracle.frames_mut().into_iter().flat_map(|frame| frame.chunks_mut(8)) {
                word.copy_from_slice(&random.next().to_le_bytes());
            }
        }
        self.place();
    }

    fn place(&mut self) {
        let contents = self.contents();
        for (buffer, bytes) in self.ours.iter_mut().zip(contents) {
            buffer.content_mut()[..bytes.len()].copy_from_slice(&bytes);
        }
    }

    /// What the buffers must hold by the original's state; the arguments are left out.
    fn contents(&self) -> [Vec<u8>; 5] {
        let image = record::image(&self.session.oracle, &self.session.reference).to_vec();
        let [a, b, msr] = self.session.oracle.frames().map(|frame| frame.to_vec());
        [image, Vec::new(), a, b, msr]
    }

    /// The original's setup, undone where document 01 refuses: document 01's number, and whether the original says it too.
    fn original(&mut self, setup: &Setup) -> (u32, bool) {
        let asked = askable(setup);
        let oracle = &mut self.session.oracle;
        let saved = oracle.save();
        let theirs = match oracle.setup(&asked) {
            Ok(()) => 0,
            Err(failure) => refusal_number(Original::Setup, &failure).expect("a number"),
        };
        let number = if setup.capabilities.inconsistent() { PAIR_REFUSED } else { theirs };
        if number != 0 {
            oracle.restore(&saved);
        } else {
            oracle.store_field(HOST_CR3, setup.host.cr3);
            oracle.store_field(HOST_TR, setup.host.tr as u64);
            self.session.reference.set_up(setup);
        }
        (number, number == theirs && asked == *setup)
    }

    fn port(&mut self, lengths: [usize; 5]) -> u32 {
        let vcpu_setup = archive::vcpu_setup().expect("the function");
        let [r, p, a, b, m] = self.ours.each_mut().map(|buffer| buffer.pointer());
        let [r_length, p_length, a_length, b_length, m_length] = lengths;
        unsafe { vcpu_setup(r, r_length, p, p_length, a, a_length, b, b_length, m, m_length) }
    }

    /// One setup of both sides, on the state that `start` left.
    fn compare(&mut self, setup: &Setup) {
        self.ours[1].content_mut()[..SETUP_BYTES].copy_from_slice(&setup.block());
        let mut expected = self.ours.each_ref().map(|buffer| buffer.content().to_vec());
        let (number, asked) = self.original(&used(setup));
        for (bytes, content) in expected.iter_mut().zip(self.contents()) {
            bytes[..content.len()].copy_from_slice(&content);
        }
        let answer = self.port(LENGTHS);
        let read = self.wrong_xcr0();
        let wrong: Vec<String> = read.into_iter().chain(self.wrong_bytes(&expected)).collect();
        self.line(setup, asked).compare_number(number, answer == number && wrong.is_empty(), || {
            format!("{setup:x?}: expected {number}, port {answer}; {wrong:?}")
        });
    }

    /// A call that document 01 refuses by 2 or by 1, whatever else is wrong.
    fn compare_refused(&mut self, random: &mut Random, setup: &Setup) {
        self.ours[1].content_mut()[..SETUP_BYTES].copy_from_slice(&setup.block());
        let mut lengths = LENGTHS;
        let mut number = BYTES_REFUSED;
        match random.below(4) {
            0 => {
                let i = random.below(5) as usize;
                lengths[i] = random.pick(&[0, 1, LENGTHS[i] - 1, LENGTHS[i] + 1, 2 * LENGTHS[i]]);
            }
            1 => {
                let flag = SETUP_FLAGS + random.below(3) as usize;
                self.ours[1].content_mut()[flag] = choose::above(random, 1);
            }
            2 => lengths[0] = choose::breakage(random, self.ours[0].content_mut()),
            _ => {
                self.ours[0].content_mut()[record::PHASE] = 1 + random.below(4) as u8;
                number = PHASE_REFUSED;
            }
        }
        let before = self.ours.each_ref().map(|buffer| buffer.content().to_vec());
        let answer = self.port(lengths);
        let wrong = self.wrong_bytes(&before);
        self.line(setup, false).compare_number(number, answer == number && wrong.is_empty(), || {
            format!("lengths {lengths:?}, {setup:x?}: expected {number}, port {answer}; {wrong:?}")
        });
    }

    /// A setup, and the same on a board without the TRUE words; so many in a hundred refused by 2 or by 1.
    fn compare_boards(&mut self, random: &mut Random, setup: Setup, refused: u64) {
        for setup in [older_board(random, &setup), setup] {
            self.start(random);
            if random.chance(refused) {
                self.compare_refused(random, &setup);
            } else {
                self.compare(&setup);
            }
        }
    }

    /// XCR0 as it is read, where the answers say otherwise.
    fn wrong_xcr0(&mut self) -> Option<String> {
        let read = calls::port(Call::GetXcr0, self.ours[0].pointer(), LENGTH);
        let expected = Reply::accepted(&[(8, self.session.reference.xcr0)]);
        (read != expected).then(|| format!("XCR0 read: {} and not {}", read.text(), expected.text()))
    }

    /// Where the buffers are not as expected.
    fn wrong_bytes(&self, expected: &[Vec<u8>; 5]) -> Vec<String> {
        let mut out = Vec::new();
        for (i, (buffer, bytes)) in self.ours.iter().zip(expected).enumerate() {
            let name = ["record", "arguments", "I/O A", "I/O B", "MSR"][i];
            if !buffer.margins_intact() {
                out.push(format!("memory around {name} changed"));
            }
            let ours = buffer.content();
            if i == 0 && ours != bytes {
                out.extend(record::differences(ours, bytes));
            }
            if let Some(at) = (0..bytes.len()).find(|&at| ours[at] != bytes[at]) {
                out.push(format!("{name} byte {at} is {:#04x} and not {:#04x}", ours[at], bytes[at]));
            }
        }
        out
    }
}

/// Every bit of every word of usual capabilities broken alone: allowed-0 gets it, allowed-1 loses it, both; and of the fixed bits.
fn broken_words(base: &Capabilities) -> Vec<Capabilities> {
    let mut all = vec![base.clone()];
    for word in 0..5 {
        for bit in 0..32 {
            let (low, high) = (1u64 << bit, 1u64 << (bit + 32));
            for (set, clear) in [(low, 0), (0, low), (high, 0), (0, high), (low, high), (0, low | high)] {
                let mut c = base.clone();
                c.pairs[word] = c.pairs[word] & !clear | set;
                all.push(c);
            }
        }
    }
    for bit in (0..64).map(|bit| 1u64 << bit) {
        let change = |f: fn(&mut Capabilities, u64)| {
            let mut c = base.clone();
            f(&mut c, bit);
            c
        };
        all.push(change(|c, bit| c.cr0_fixed0 ^= bit));
        all.push(change(|c, bit| c.cr0_fixed1 ^= bit));
        all.push(change(|c, bit| c.cr4_fixed0 ^= bit));
        all.push(change(|c, bit| c.cr4_fixed1 ^= bit));
        for word in 0..4 {
            let mut c = base.clone();
            c.plain[word] ^= bit;
            all.push(c);
        }
    }
    all
}

/// Two words that can't be had: each pair of 6, 8 and, for primary, 9.
fn broken_pairs(base: &Capabilities) -> Vec<Capabilities> {
    const SET: [u64; 5] = [0x8, 0x8000_0000, 0x2, 0x200, 0x4000];
    let spoil = |c: &mut Capabilities, word: usize, how: usize| match how {
        0 => c.pairs[word] = c.pairs[word] & !(1 << 33) | 2,
        1 => c.pairs[word] &= !(SET[word] << 32) & !SET[word],
        _ => c.pairs[1] |= 0x8000_0000_8000,
    };
    let mut all = Vec::new();
    for (first, second) in (0..5).flat_map(|first| (0..5).map(move |second| (first, second))) {
        for (how, other) in (0..3).flat_map(|how| (0..3).map(move |other| (how, other))) {
            let mut c = base.clone();
            spoil(&mut c, first, how);
            spoil(&mut c, second, other);
            all.push(c);
        }
    }
    all
}

fn random_setup(random: &mut Random) -> Setup {
    random.comparable = random.chance(85);
    let mut setup = random.setup();
    random.comparable = true;
    if random.chance(40) {
        setup.capabilities = random.pick(&processors().each_ref()).clone();
    }
    for _ in 0..random.below(3) {
        let word = random.below(5) as usize;
        let pair = &mut setup.capabilities.pairs[word];
        *pair = if random.chance(50) { random.spoiled_pair(word, *pair) } else { *pair ^ 1 << random.below(64) };
    }
    setup
}

/// Usual capabilities; and with the pairs of a board whose plain words are these, which demand bits that setup clears.
fn bases() -> Vec<Capabilities> {
    let usual: Vec<Capabilities> = processors().into_iter().chain([usual_setup().capabilities]).collect();
    let plain = usual.iter().map(|c| used(&Setup { capabilities: c.clone(), ..Setup::default() }).capabilities);
    plain.chain(usual.iter().cloned()).collect()
}

pub fn run(random: &mut Random, cases: u64, totals: &mut Totals) {
    let mut sides = Sides::new();
    let broken = bases().into_iter().flat_map(|base| [broken_words(&base), broken_pairs(&base)].concat());
    for capabilities in broken {
        let setup = Setup { capabilities, ..random.setup() };
        sides.compare_boards(random, setup, 0);
    }
    for _ in 0..cases {
        let setup = random_setup(random);
        sides.compare_boards(random, setup, 10);
    }
    sides.inside.demand(&WORD_NUMBERS);
    sides.plain.demand(&WORD_NUMBERS);
    [sides.inside, sides.outside, sides.plain].into_iter().for_each(|line| totals.add(line));
}
