//! The list exit_report: a case changes numbers of the report, words kept from setup and fields of the session, and then the session takes
//! the report. The next case goes on with the report and the session.

use crate::{List, digest, number_of};
use oracle::blocks::REPORT_NUMBERS;
use oracle::generate::Random;
use oracle::record::{self, Reference};
use oracle::samples::usual_setup;
use oracle::{Answer, Call, Capabilities, FIELDS, FIELDS_BEFORE_TABLE, Oracle, Report, field_bits};

/// A place and its new value: a number of the report from 1 on in the order of the C interface's block, a kept word, or a field by its encoding.
type Change = (usize, u64);
/// A case has as many changes at most.
const CHANGES: usize = 4;

/// Places of the report.
const RAX: usize = 1;
const RCX: usize = 2;
const RDX: usize = 3;
const RSP: usize = 18;
const RIP: usize = 17;
const CR0: usize = 21;
const CR4: usize = 23;
const EFER: usize = 24;
const REASON: usize = 28;
const QUALIFICATION: usize = 29;
const LENGTH: usize = 30;
const INTERRUPTION: usize = 31;
const CPUID: usize = 33;
/// The kept words, in the record's order: five pairs, allowed-1 in the high half, and four words of fixed bits.
const KEPT: usize = REPORT_NUMBERS + 1;
const ENTRY_PAIR: usize = KEPT + 4;
const CR0_FIXED: [usize; 2] = [KEPT + 5, KEPT + 6];
const CR4_FIXED: [usize; 2] = [KEPT + 7, KEPT + 8];
const FIELDS_FROM: usize = 0x800;

/// The exit reason of which document 02 decides, and the original does not.
const XSETBV: u64 = 55;

const PRIMARY: usize = 0x4002;
const ENTRY_WORD: usize = 0x4012;
const ENTRY_INTERRUPTION: usize = 0x4016;
/// A control register's field, its mask's, and its place in the report.
const CONTROL_REGISTERS: [(u32, u32, usize); 2] = [(0x6800, 0x6000, CR0), (0x6804, 0x6002, CR4)];

fn put_kept(kept: &mut Capabilities, i: usize, value: u64) {
    match i {
        0..5 => kept.pairs[i] = value,
        5 => kept.cr0_fixed0 = value,
        6 => kept.cr0_fixed1 = value,
        7 => kept.cr4_fixed0 = value,
        _ => kept.cr4_fixed1 = value,
    }
}

/// What document 01 says where the original says otherwise.
enum Rule {
    Refused(u32),
    /// The original's state, and the answer Halt.
    Halts,
}

struct Reports {
    list: List,
    oracle: Oracle,
    kept: Capabilities,
    numbers: [u64; REPORT_NUMBERS],
}

impl Reports {
    fn new() -> Self {
        Reports {
            list: List::default(),
            oracle: Oracle::new(),
            kept: Capabilities::default(),
            numbers: [0; REPORT_NUMBERS],
        }
    }

    fn put(&mut self, (place, value): Change) {
        match place {
            FIELDS_FROM.. => self.oracle.write_field(place as u32, value).expect("a field that can be written"),
            KEPT.. => {
                put_kept(&mut self.kept, place - KEPT, value);
                self.oracle.store_capabilities(&self.kept);
            }
            _ => self.numbers[place - 1] = value,
        }
    }

    fn value(&mut self, place: usize) -> u64 {
        match place {
            FIELDS_FROM.. => self.oracle.read_field(place as u32).expect("a field"),
            KEPT.. => unreachable!("kept words are not asked for"),
            _ => self.numbers[place - 1],
        }
    }

    /// The changes that bring CR0 and CR4 of the report to the session's, under their masks.
    fn owned_bits(&mut self) -> Vec<Change> {
        let mut changes = Vec::new();
        for (field, mask, place) in CONTROL_REGISTERS {
            let (field, mask) = (self.value(field as usize), self.value(mask as usize));
            let ours = self.numbers[place - 1];
            if (field ^ ours) & mask != 0 {
                changes.push((place, field & mask | ours & !mask));
            }
        }
        changes
    }

    /// A case and what the original answers. CR0 and CR4 are brought to where the mask test passes.
    fn add(&mut self, changes: &[Change]) {
        changes.iter().for_each(|&change| self.put(change));
        let owned = self.owned_bits();
        owned.iter().for_each(|&change| self.put(change));
        self.list_case(&[changes, &owned].concat(), None);
    }

    /// A case in which document 01's rule decides.
    fn add_ruled(&mut self, changes: &[Change], rule: Rule) {
        changes.iter().for_each(|&change| self.put(change));
        self.list_case(changes, Some(rule));
    }

    /// The changes are made: the eight words of the answer and a digest of the record, or the refusal.
    fn list_case(&mut self, changes: &[Change], rule: Option<Rule>) {
        assert!(changes.len() <= CHANGES);
        let report = Report::of_numbers(&self.numbers);
        let answer = match rule {
            Some(Rule::Refused(number)) => Err(number),
            _ => self
                .oracle
                .take_report(&report)
                .map_err(|failure| number_of(Call::Exit(report.reason), &failure))
                .map(|answer| if rule.is_some() { Answer::Halt } else { answer }),
        };
        let case: Vec<u64> = changes.iter().flat_map(|&(place, value)| [place as u64, value]).collect();
        let numbers = answer.map(|answer| self.numbers_of(&answer));
        self.list.add(&case, numbers);
    }

    fn numbers_of(&self, answer: &Answer) -> Vec<u64> {
        let reference =
            Reference { phase: record::phase_after(answer), kept: self.kept.clone(), ..Reference::default() };
        let mut numbers = answer.words().to_vec();
        numbers.push(digest(&record::image(&self.oracle, &reference)));
        numbers
    }

    /// Each of these values at a place.
    fn add_each(&mut self, place: usize, values: impl IntoIterator<Item = u64>) {
        values.into_iter().for_each(|value| self.add(&[(place, value)]));
    }

    /// Kept words of a usual processor, every field that can be written, every number of the report.
    fn add_start(&mut self, random: &mut Random) {
        let usual = usual_setup().capabilities;
        let kept: Vec<Change> = (KEPT..).zip(usual.pairs.into_iter().chain(usual.fixed())).collect();
        kept.chunks(2).for_each(|changes| self.add(changes));
        let mut fields = Vec::new();
        for (encoding, _) in &FIELDS[FIELDS_BEFORE_TABLE..] {
            if self.oracle.write_field(*encoding, 0).is_ok() {
                fields.push((*encoding as usize, random.next() >> (64 - field_bits(*encoding))));
            }
        }
        fields.chunks(2).for_each(|changes| self.add(changes));
        let report = random.report(&mut self.oracle).numbers();
        let numbers: Vec<Change> = (1..REASON).map(|place| (place, report[place - 1])).collect();
        numbers.chunks(2).for_each(|changes| self.add(changes));
        self.add_each(LENGTH, [2]);
    }

    /// Every reason but XSETBV, with other bits of the full reason, and failed entries.
    fn add_reasons(&mut self) {
        self.add(&[(INTERRUPTION, 0x8000_0030), (QUALIFICATION, 0x60_0001)]);
        self.add_each(REASON, (0..65).filter(|&reason| reason != XSETBV));
        self.add_each(REASON, [7, 10, 12, 18, 30, 31, 52].map(|reason| reason | 0x7FFF_0000));
        self.add_each(REASON, [70, 71, 0xFF, 0x100, 0xFFFF, 0x1_0046]);
        for reason in [33, 34, 41] {
            self.add(&[(REASON, reason | 1 << 31), (QUALIFICATION, reason * 3)]);
            self.add(&[(REASON, reason | 0xFFFF_0000), (RIP, reason << 8)]);
        }
    }

    fn add_interrupts(&mut self) {
        self.add(&[(REASON, 1)]);
        for kind in [0, 2, 3, 4, 5, 6, 7] {
            self.add_each(INTERRUPTION, [0, 0x20, 0xFF, 0x820, 0x7FFF_F820].map(|word| word & !0x700 | kind << 8));
            self.add_each(
                INTERRUPTION,
                [0, 0x20, 0xFF, 0x820, 0x7FFF_F820].map(|word| word & !0x700 | kind << 8 | 1 << 31),
            );
        }
        for (reason, field) in [(7, PRIMARY), (52, 0x482E), (12, ENTRY_INTERRUPTION)] {
            for value in [0, 4, 0xFFFF_FFFB, 0xFFFF_FFFF, 0x8000_0603] {
                self.add(&[(REASON, reason), (field, value)]);
            }
        }
    }

    fn add_cpuid(&mut self) {
        self.add(&[(REASON, 10)]);
        let leaves = [0, 1, 2, 7, 0xD, 0x16, 0x3FFF_FFFF, 0x4000_0000, 0x4000_0001, 0x4000_0002, 0x8000_0000];
        for words in [0, 0xFFFF_FFFF, 0x1234_5678] {
            (0..4).for_each(|i| self.add(&[(CPUID + i, words)]));
            for leaf in leaves {
                self.add(&[(RAX, leaf), (RCX, 0)]);
                self.add(&[(RCX, 1)]);
                self.add(&[(RAX, leaf | 0xABCD << 32), (RCX, 1 << 32)]);
            }
        }
        for bit in 0..32 {
            self.add(&[(RAX, 1), (CPUID + bit % 4, 1 << bit)]);
            self.add(&[(RAX, 7), (CPUID + (bit + 1) % 4, 1 << bit)]);
        }
    }

    fn add_calls_and_ports(&mut self) {
        self.add(&[(REASON, 18), (RIP, 0x1000)]);
        self.add_each(LENGTH, [0, 1, 3, 15, 0xFF, 0x100, 0x102, 0xFFFF_FFFF, 2]);
        self.add_each(RIP, [u64::MAX, u64::MAX - 1, u64::MAX - 2, 0]);
        self.add(&[(REASON, 30)]);
        for low in (0..64).filter(|low| low & 0x37 != 7) {
            self.add_each(QUALIFICATION, [low, low | 0xFFFF_0000]);
        }
        for rax in [0x2000, 0x1_2000, 0x2001, 0xFFFF_FFFF_FFFF_2000] {
            self.add(&[(RAX, rax)]);
            self.add_each(QUALIFICATION, [0x604_0001, 0x604_0000, 0x604_0003, 0x604_0009, 0x604_0011, 0x605_0001]);
        }
        self.add_each(RIP, [u64::MAX, u64::MAX - 1, u64::MAX - 2, 0]);
    }

    fn add_msrs(&mut self) {
        let registers = [0, 1, 0x7FF, 0x800, 0x80B, 0x8FF, 0x900, 0xC000_0080, 0xFFFF_FFFF];
        for reason in [31, 32] {
            self.add(&[(REASON, reason)]);
            for high in [0, 1 << 32, 0xFFFF_FFFF << 32] {
                self.add_each(RCX, registers.map(|register| register | high));
            }
            self.add(&[(RAX, 0x1_8000_0001), (RDX, 0xFFFF_FFFF_0000_0007)]);
            self.add(&[(RCX, 0x802), (RIP, u64::MAX - 1)]);
            self.add_each(RIP, [u64::MAX - 2, 0x10]);
        }
    }

    /// APIC accesses of each type.
    fn add_refused(&mut self) {
        self.add(&[(REASON, 44)]);
        self.add_each(QUALIFICATION, (0..16).map(|kind| kind << 12 | 0x30));
    }

    /// Moves to CR0 and CR4: every register, every bit, EFER and the entry word; other accesses.
    fn add_moves(&mut self) {
        self.add(&[(REASON, 28), (EFER, 0)]);
        for cr in 0..16 {
            self.add_each(QUALIFICATION, (0..4).map(|access| cr | access << 4));
        }
        for (cr, register) in [0, 4].into_iter().flat_map(|cr| (0..16).map(move |register| (cr, register))) {
            let place = if register == 4 { RSP } else { register as usize + 1 };
            self.add(&[(QUALIFICATION, cr | register << 8), (place, 0x1000 << register | 0x11)]);
        }
        for cr in [0, 4] {
            self.add(&[(QUALIFICATION, cr)]);
            self.add_each(RAX, (0..64).map(|bit| 1 << bit));
        }
        self.add_each(QUALIFICATION, [0]);
        let pairs = [0xFFFF_FFFF_0000_11FB, 0xFFFF_FDFF_0000_11FB, 0xFFFF_FFFF_0000_13FB];
        for (pair, word) in pairs.into_iter().flat_map(|pair| [0xD1FF, 0xD3FF].map(|word| (pair, word))) {
            self.add(&[(ENTRY_PAIR, pair), (ENTRY_WORD, word)]);
            for efer in [0, 0x100, 0x400, 0x500, 0xFFFF, u64::MAX] {
                self.add(&[(EFER, efer), (RAX, 0x8000_0011)]);
                self.add(&[(RAX, 0x11)]);
            }
        }
        // 17 comes before 8.
        self.add(&[(ENTRY_PAIR, pairs[1]), (EFER, 0x100)]);
        self.add_each(RAX, [0x8000_0011]);
        self.add_each(RIP, [u64::MAX, u64::MAX - 2, u64::MAX - 3, 0x1000]);
        self.add(&[(ENTRY_PAIR, pairs[0])]);
        for cr in [0, 4] {
            self.add(&[(QUALIFICATION, cr), (RAX, 0)]);
            for (fixed0, fixed1) in [(0, u64::MAX), (0x8000_0021, 0x8000_0021), (u64::MAX, u64::MAX), (0, 0)] {
                let [low, high] = if cr == 0 { CR0_FIXED } else { CR4_FIXED };
                self.add(&[(low, fixed0), (high, fixed1)]);
                self.add_each(RAX, [0x8000_0011, 0x60, u64::MAX, 0]);
            }
        }
        self.add_each(RIP, [u64::MAX, u64::MAX - 2, u64::MAX - 3, 0x1000]);
    }

    /// One or two numbers of a random report, or a field.
    fn add_random(&mut self, random: &mut Random) {
        let wanted = random.report(&mut self.oracle).numbers();
        let change = |place: usize| (place, wanted[place - 1]);
        let any = 1 + random.below(REPORT_NUMBERS as u64) as usize;
        let changes = match random.below(10) {
            0..4 => vec![change(REASON), change(QUALIFICATION)],
            4 => vec![change(REASON)],
            5 => vec![change(random.pick(&[RAX, RCX, RDX, RIP, EFER, LENGTH, INTERRUPTION, RSP, QUALIFICATION]))],
            6 => vec![change(REASON), change(any)],
            7 => {
                let field = random.pick(&[PRIMARY, ENTRY_WORD, ENTRY_INTERRUPTION, 0x6000, 0x6002, 0x6800, 0x6804]);
                vec![(field, random.word() >> (64 - field_bits(field as u32)))]
            }
            _ => vec![change(any)],
        };
        let mut next = self.numbers;
        changes.iter().filter(|change| change.0 < KEPT).for_each(|&(place, value)| next[place - 1] = value);
        if decided(&Report::of_numbers(&next)) {
            self.add(&changes);
        }
    }

    /// The cases in which document 01 decides against the original.
    fn add_all_ruled(&mut self) {
        self.add(&[(REASON, 12), (0x6000, 0xFFFF_FFFF_6000_0020)]);
        self.add(&[(0x6002, 0x2001)]);
        for (place, bits) in [(CR0, &[5, 29, 30, 32, 63][..]), (CR4, &[0, 13])] {
            for bit in bits {
                let right = self.numbers[place - 1];
                self.add_ruled(&[(place, right ^ 1 << bit)], Rule::Refused(15));
                self.add(&[(place, right)]);
            }
        }
        for reason in (0..65).filter(|reason| !matches!(reason, 33 | 34 | 41)) {
            self.add_ruled(&[(REASON, reason | 1 << 31)], Rule::Refused(14));
        }
        for reason in 65..70 {
            self.add_ruled(&[(REASON, reason)], Rule::Refused(14));
        }
        for word in [0x8000_0100, 0x8000_0120, 0xFFFF_F9FF, 0x8000_0900] {
            self.add_ruled(&[(REASON, 1), (INTERRUPTION, word)], Rule::Refused(16));
        }
        for qualification in [0x7, 0xF, 0x6_000F, 0x604_0007] {
            self.add_ruled(&[(REASON, 30), (QUALIFICATION, qualification)], Rule::Halts);
        }
    }
}

/// Whether the original decides: neither the reserved type nor I/O of 8 bytes.
fn decided(report: &Report) -> bool {
    match report.reason & 0xFFFF {
        1 => report.interruption_info >> 8 & 7 != 1,
        30 => report.qualification & 0x37 != 7,
        _ => true,
    }
}

pub fn list(random: &mut Random) -> List {
    let mut reports = Reports::new();
    reports.add_start(random);
    reports.add_reasons();
    reports.add_interrupts();
    reports.add_cpuid();
    reports.add_calls_and_ports();
    reports.add_msrs();
    reports.add_refused();
    reports.add_moves();
    while reports.list.has_room() {
        reports.add_random(random);
    }
    reports.add_all_ruled();
    reports.list
}
