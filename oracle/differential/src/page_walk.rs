//! `vcpu_page_walk` by document 02 (N6), since the original has no walk: the model is `paging.rs`. What a walk starts from is the original's own reading of the
//! same session.
//!
//! Tables are laid that lead an address to a page. Then bits are flipped in entries, in CR3 and in the address, rights are taken away, and memory is cut short
//! at an entry. The number, the answer with the words around it, and the record and the memory with what lies behind them are compared.

use crate::archive;
use crate::buffer::Buffer;
use crate::calls::{BYTES_REFUSED, Reply};
use crate::choose;
use crate::paging::{self, End, LEVELS, Level, bits, entry_bytes, top_bits, with_bits};
use crate::tally::{Tally, Totals};
use oracle::generate::Random;
use oracle::record::{self, LENGTH, Reference};
use oracle::{FRAME_BYTES, Oracle};
use std::collections::BTreeSet;

/// The guest's memory, in frames.
const FRAMES: u64 = 8;
const MEMORY: usize = FRAMES as usize * FRAME_BYTES;
const MEMORY_REFUSED: u32 = 26;

/// Another session and another memory after so many walks.
const WALKS: u64 = 100;
/// Settings that are tried at each flipped bit and at each end of memory.
const TRIED: u64 = 6;

const CR0: u32 = 0x6800;
const CR3: u32 = 0x6802;
const CR4: u32 = 0x6804;
const EFER: u32 = 0x2806;
const SS_RIGHTS: u32 = 0x4818;

const PRESENT: u64 = 1;
const NO_EXECUTE: u64 = 1 << 63;
/// Bits of an entry that take a right away when they are flipped: the user's, to write, to execute.
const RIGHTS: [u64; 3] = [1 << 2, 1 << 1, NO_EXECUTE];

/// The levels of a session's tables, and its flags.
#[derive(Clone, Copy, Default)]
struct Setting {
    levels: u64,
    user: bool,
    pse: bool,
    wp: bool,
    nxe: bool,
    smep: bool,
    smap: bool,
}

const SETTINGS: u64 = 64;

impl Setting {
    /// By a number below `SETTINGS`.
    fn numbered(levels: u64, number: u64) -> Self {
        let [user, pse, wp, nxe, smep, smap] = [0, 1, 2, 3, 4, 5].map(|place| number >> place & 1 == 1);
        Setting { levels, user, pse, wp, nxe, smep, smap }
    }

    /// Brings a session there. All other bits of its words are random.
    fn put(&self, random: &mut Random, oracle: &mut Oracle, cr3: u64) {
        let any = random.chance(50);
        let pae = self.levels > 2 || any && self.levels == 0;
        let long_mode = self.levels == 4 || any && self.levels != 3;
        let privilege = if self.user { 3 } else { random.below(3) };
        let mut store = |encoding: u32, flags: &[(u32, bool)]| {
            let put = |word: u64, &(place, on): &(u32, bool)| with_bits(word, (place, place), on as u64);
            oracle.store_field(encoding, flags.iter().fold(random.word(), put));
        };
        store(CR0, &[(31, self.levels > 0), (16, self.wp)]);
        store(CR4, &[(4, self.pse), (5, pae), (20, self.smep), (21, self.smap)]);
        store(EFER, &[(10, long_mode), (11, self.nxe)]);
        oracle.store_field(CR3, cr3);
        oracle.store_field(SS_RIGHTS, with_bits(random.word32() as u64, (5, 6), privilege));
    }

    fn tables(&self) -> impl Iterator<Item = &'static Level> + use<> {
        let levels = self.levels;
        LEVELS.iter().filter(move |level| level.levels == levels)
    }
}

/// A walk, and what is changed of the tables that lead it to its page.
#[derive(Clone, Copy, Default)]
struct Walk {
    setting: Setting,
    access: u8,
    /// The level of the page. Without CR4.PSE a page of 4 MBytes gives way to a table.
    page: u64,
    /// So many of a hundred rights are missing.
    missing: u64,
    /// The bits that are flipped in the entry of each level, in CR3 and in the address.
    entries: [u64; 5],
    cr3: u64,
    address: u64,
    /// The level of an entry, and how many bytes of memory there are from its start on.
    cut: Option<(u64, usize)>,
}

/// What a call is lent and told.
struct Lent {
    record: usize,
    memory: usize,
    address: u64,
    access: u8,
}

struct Guest {
    oracle: Oracle,
    reference: Reference,
    /// With room for a wrong length.
    record: Buffer,
    memory: Buffer,
    /// What the memory holds.
    bytes: Vec<u8>,
    /// How walks ended: levels, level, and the end, any address as 0.
    met: BTreeSet<(u64, u64, End)>,
}

impl Guest {
    fn new() -> Self {
        Guest {
            oracle: Oracle::new(),
            reference: Reference::default(),
            record: Buffer::new(2 * LENGTH),
            memory: Buffer::new(MEMORY),
            bytes: vec![0; MEMORY],
            met: BTreeSet::new(),
        }
    }

    /// Any session in any phase, and a memory in which most entries lead on.
    fn start(&mut self, random: &mut Random, levels: u64) {
        self.oracle.put(&choose::state(random));
        self.reference = choose::reference(random);
        let size = entry_bytes(levels);
        for bytes in self.bytes.chunks_exact_mut(size) {
            let flags = random.pick(&[0x001, 0x067, 0x867, 0x027, 0x0E7, 0x063, 0x065, 0x066]);
            bytes.copy_from_slice(&(random.below(FRAMES) << 12 | flags).to_le_bytes()[..size]);
        }
    }

    fn put_entry(&mut self, at: usize, size: usize, entry: u64) {
        self.bytes[at..at + size].copy_from_slice(&entry.to_le_bytes()[..size]);
    }

    /// Lays the tables of a walk, each in a frame of its own, and changes them. CR3, and how long the memory is.
    fn lay(&mut self, random: &mut Random, walk: &Walk, address: u64) -> (u64, usize) {
        let Walk { setting, page, .. } = *walk;
        if setting.levels == 0 {
            return (random.word(), walk.cut.map_or(MEMORY, |cut| cut.1));
        }
        // Ascending, so that what is cut off is the entry and not one before it; or in any order.
        let ascending = (random.below(FRAMES - 4), 1);
        let any = (random.below(FRAMES), random.pick(&[1, 3, 5, 7]));
        let (first, step) = if walk.cut.is_some() { ascending } else { any };
        let frame = |i: u64| (first + i * step) % FRAMES;
        let (size, top_bits) = (entry_bytes(setting.levels), top_bits(setting.levels));
        // The top table of 3 levels starts anywhere in its frame.
        let top = (frame(0) << 12 | random.next() & 0xFFF) >> top_bits.0;
        let (mut table, mut memory) = (top << top_bits.0, MEMORY);
        for (i, level) in (1..).zip(setting.tables()) {
            let at = table as usize + bits(address, level.index) as usize * size;
            let is_page = level.level == 1 || level.level == page && (setting.levels > 2 || setting.pse);
            let entry = leading(random, walk, level, is_page, frame(i));
            self.put_entry(at, size, entry ^ walk.entries[level.level as usize]);
            if let Some((_, kept)) = walk.cut.filter(|cut| cut.0 == level.level) {
                memory = at + kept;
            }
            if is_page {
                break;
            }
            table = frame(i) << 12;
        }
        (with_bits(random.next(), top_bits, top) ^ walk.cr3, memory)
    }

    fn walk(&mut self, tally: &mut Tally, random: &mut Random, walk: &Walk) {
        let address = if random.chance(50) { random.next() } else { random.word() };
        let (cr3, memory) = self.lay(random, walk, address);
        self.put_session(random, &walk.setting, cr3);
        let lent = Lent { record: LENGTH, memory, address: address ^ walk.address, access: walk.access };
        self.compare(tally, &lent);
    }

    fn put_session(&mut self, random: &mut Random, setting: &Setting, cr3: u64) {
        setting.put(random, &mut self.oracle, cr3);
        let image = record::image(&self.oracle, &self.reference);
        self.record.content_mut()[..LENGTH].copy_from_slice(&image);
    }

    /// What the model answers.
    fn expected(&mut self, lent: &Lent) -> Reply {
        if lent.record != LENGTH || !record::lawful(self.record.content()) || lent.access > 2 {
            return Reply::refused(BYTES_REFUSED);
        }
        let reading = self.oracle.page_walk();
        let (level, end) = paging::walk(&self.bytes[..lent.memory], &reading, lent.address, lent.access);
        let (met, reply) = match end {
            End::Address(address) => (End::Address(0), Reply::accepted(&[(8, 0), (8, address), (8, 0)])),
            End::Fails(rule) => (end, Reply::accepted(&[(8, 1), (8, level), (8, rule)])),
            End::Past => (end, Reply::refused(MEMORY_REFUSED)),
        };
        self.met.insert((reading.level, level, met));
        reply
    }

    fn compare(&mut self, tally: &mut Tally, lent: &Lent) {
        let expected = self.expected(lent);
        self.compare_with(tally, lent, expected);
    }

    fn compare_with(&mut self, tally: &mut Tally, lent: &Lent, expected: Reply) {
        let page_walk = archive::vcpu_page_walk().expect("the function");
        self.memory.content_mut().copy_from_slice(&self.bytes);
        let before = self.record.content().to_vec();
        let mut reply = Reply::refused(0);
        let (record, memory) = (self.record.pointer().cast_const(), self.memory.pointer().cast_const());
        let Lent { record: length, memory: memory_length, address, access } = *lent;
        reply.number =
            unsafe { page_walk(record, length, memory, memory_length, address, access, reply.results.first()) };
        let record_kept = self.record.content() == before && self.record.margins_intact();
        let memory_kept = self.memory.content() == self.bytes && self.memory.margins_intact();
        tally.compare_number(expected.number, reply == expected && record_kept && memory_kept, || {
            let (expected, reply, reading) = (expected.text(), reply.text(), self.oracle.page_walk());
            format!(
                "{address:#x}, access {access}, record of {length} bytes, memory of {memory_length:#x}, {reading:x?}: expected {expected}, \
                port {reply}; record kept: {record_kept}, memory kept: {memory_kept}"
            )
        });
    }
}

/// An entry that is a page, or leads on to the table in this frame. Bits that say nothing are random.
fn leading(random: &mut Random, walk: &Walk, level: &Level, page: bool, frame: u64) -> u64 {
    let kind = level.kinds.iter().find(|kind| kind.page.is_some() == page).expect("a kind");
    let mut entry = random.next();
    if let Some(large) = kind.large.filter(|_| walk.setting.levels > 2 || walk.setting.pse) {
        entry = with_bits(entry, (7, 7), large as u64);
    }
    if !page {
        entry = with_bits(entry, kind.address[0].0, frame);
    }
    if level.rights {
        entry = entry & !NO_EXECUTE | RIGHTS[0] | RIGHTS[1];
        entry ^= RIGHTS.into_iter().filter(|_| random.chance(walk.missing)).sum::<u64>();
    }
    kind.reserved.iter().fold(entry | PRESENT, |entry, &run| with_bits(entry, run, 0))
}

/// The levels that have pages, each with the levels of its tables; then none.
fn pages() -> Vec<(u64, u64)> {
    let with_pages = LEVELS.iter().filter(|level| level.kinds.iter().any(|kind| kind.page.is_some()));
    with_pages.map(|level| (level.levels, level.level)).chain([(0, 0)]).collect()
}

/// Walks with any changes; now and then another access than the three, and bytes that are no record.
fn changed(random: &mut Random, cases: u64, guest: &mut Guest, totals: &mut Totals) {
    let mut tally = Tally::new("vcpu_page_walk (document 02)");
    let (mut levels, mut page) = (0, 0);
    for i in 0..cases {
        if i % WALKS == 0 {
            (levels, page) = random.pick(&pages());
            guest.start(random, levels);
        }
        let setting = Setting::numbered(levels, random.below(SETTINGS));
        let access = if random.chance(3) { choose::above(random, 2) } else { random.below(3) as u8 };
        let mut walk = Walk { setting, access, page, missing: random.pick(&[0, 5, 20]), ..Walk::default() };
        let (level, bit) = (page + random.below(levels - page + 1), 1 << random.below(64));
        match random.below(10) {
            0..4 => walk.entries[level as usize] = bit,
            4 => walk.entries[level as usize] = bit | 1 << random.below(64),
            5 => walk.cr3 = bit,
            6 => walk.address = bit,
            7 => walk.cut = Some((level, random.below(10) as usize)),
            _ => (),
        }
        guest.walk(&mut tally, random, &walk);
        if random.chance(3) {
            let record = choose::breakage(random, guest.record.content_mut());
            let memory = random.pick(&[0, MEMORY]);
            guest.compare(&mut tally, &Lent { record, memory, address: random.next(), access });
        }
    }
    tally.demand(&[0, BYTES_REFUSED, MEMORY_REFUSED]);
    totals.add(tally);
}

/// Each bit of each kind of entry flipped, alone and with the present bit; each bit of CR3 and of the address; and memory that ends near and inside each entry.
fn bits_and_ends(random: &mut Random, guest: &mut Guest, totals: &mut Totals) {
    let mut tally = Tally::new("vcpu_page_walk, each bit and each end of memory (document 02)");
    for (levels, page) in pages() {
        guest.start(random, levels);
        let mut tried = |change: &dyn Fn(&mut Walk)| {
            for _ in 0..TRIED {
                let setting = Setting::numbered(levels, random.below(SETTINGS));
                let mut walk = Walk { setting, access: random.below(3) as u8, page, ..Walk::default() };
                change(&mut walk);
                guest.walk(&mut tally, random, &walk);
            }
        };
        for bit in (0..64).map(|place| 1 << place) {
            tried(&|walk| walk.cr3 = bit);
            tried(&|walk| walk.address = bit);
            for level in page as usize..=levels as usize {
                tried(&|walk| walk.entries[level] = bit);
                tried(&|walk| walk.entries[level] = bit | PRESENT);
            }
        }
        for (level, kept) in (page..=levels).flat_map(|level| (0..10).map(move |kept| (level, kept))) {
            tried(&|walk| walk.cut = Some((level, kept)));
            tried(&|walk| (walk.cut, walk.entries[level as usize]) = (Some((level, kept)), PRESENT));
        }
    }
    totals.add(tally);
}

/// Each setting with each access, and each set of rights missing at each level: before an entry that is present, one that is not, and one past the end of
/// memory.
fn rights(random: &mut Random, guest: &mut Guest, totals: &mut Totals) {
    let mut tally = Tally::new("vcpu_page_walk, each setting and the rights at each level (document 02)");
    let [user, write, execute] = RIGHTS;
    let sets = [0, user, write, execute, user | write, user | execute, write | execute, user | write | execute];
    for (levels, page) in pages() {
        for number in 0..SETTINGS {
            guest.start(random, levels);
            let cases = (page..=levels).flat_map(|level| (0..=2).map(move |access| (level, access)));
            for ((level, access), set) in cases.flat_map(|case| sets.map(|set| (case, set))) {
                let mut walk = Walk { setting: Setting::numbered(levels, number), access, page, ..Walk::default() };
                walk.entries[level as usize] = set;
                guest.walk(&mut tally, random, &walk);
                if level > page {
                    guest.walk(&mut tally, random, &Walk { cut: Some((level - 1, 0)), ..walk });
                    walk.entries[level as usize - 1] = PRESENT;
                    guest.walk(&mut tally, random, &walk);
                }
            }
        }
    }
    totals.add(tally);
}

/// A worked case: entries and where they lie in a memory of 0x6000 bytes, and the answer, or none for 26.
struct Worked {
    setting: Setting,
    cr3: u64,
    address: u64,
    entries: &'static [(usize, u64)],
    answer: Option<[u64; 3]>,
}

const LONG: Setting = Setting { levels: 4, nxe: true, user: false, pse: false, wp: false, smep: false, smap: false };
const TABLES: [(usize, u64); 4] = [(0x1008, 0x2007), (0x2008, 0x3007), (0x3008, 0x4007), (0x4008, 0x5007)];
const FIRST: Worked =
    Worked { setting: LONG, cr3: 0x1000, address: 0x80_4020_1ABC, entries: &TABLES, answer: Some([0, 0x5ABC, 0]) };
const WORKED: [Worked; 9] = [
    FIRST,
    Worked { entries: &[TABLES[0], TABLES[1], (0x3008, 0x2000_0087)], answer: Some([0, 0x2000_1ABC, 0]), ..FIRST },
    Worked { entries: &[TABLES[0], TABLES[1], (0x3008, 0x2000_2087)], answer: Some([1, 2, 2]), ..FIRST },
    Worked { setting: Setting { user: true, ..LONG }, entries: &[(0x1008, 0x2003)], answer: Some([1, 4, 3]), ..FIRST },
    Worked { entries: &[(0x1008, 0xF_FFFF_FFFF_F003)], answer: None, ..FIRST },
    Worked { setting: Setting { smap: true, ..LONG }, answer: Some([1, 1, 7]), ..FIRST },
    Worked {
        setting: Setting { levels: 2, pse: true, ..LONG },
        address: 0x00C0_1234,
        entries: &[(0x100C, 0x0080_2087)],
        answer: Some([0, 0x1_0080_1234, 0]),
        ..FIRST
    },
    Worked {
        setting: Setting { levels: 2, ..LONG },
        address: 0x00C0_1234,
        entries: &[(0x100C, 0x0080_2087)],
        answer: None,
        ..FIRST
    },
    Worked {
        setting: Setting { levels: 3, ..LONG },
        cr3: 0x1020,
        address: 0,
        entries: &[(0x1020, 0x2003)],
        answer: Some([1, 3, 2]),
    },
];

/// A supervisor's reads, by the model and by the port.
fn worked(random: &mut Random, guest: &mut Guest, totals: &mut Totals) {
    let mut tally = Tally::new("vcpu_page_walk, worked cases (document 02)");
    for Worked { setting, cr3, address, entries, answer } in WORKED {
        guest.start(random, setting.levels);
        guest.bytes.fill(0);
        entries.iter().for_each(|&(at, entry)| guest.put_entry(at, 8, entry));
        guest.put_session(random, &setting, cr3);
        let reply = match answer {
            Some(words) => Reply::accepted(&words.map(|word| (8, word))),
            None => Reply::refused(MEMORY_REFUSED),
        };
        let lent = Lent { record: LENGTH, memory: 0x6000, address, access: 0 };
        let (model, wanted) = (guest.expected(&lent), reply.text());
        tally.compare(model == reply, || format!("{address:#x}: worked {wanted}, the model {}", model.text()));
        guest.compare_with(&mut tally, &lent, reply);
    }
    totals.add(tally);
}

/// Every end that a walk can have at a level.
fn ends() -> BTreeSet<(u64, u64, End)> {
    let mut ends = BTreeSet::from([(0, 0, End::Address(0))]);
    for level in &LEVELS {
        let (long, pages) = (level.levels > 2, level.kinds.iter().any(|kind| kind.page.is_some()));
        let reserved = level.kinds.iter().any(|kind| !kind.reserved.is_empty()) || long;
        let (users, executes) = (level.rights, level.rights && long);
        let rules = [true, reserved, users, users, executes, pages, pages];
        let broken = (1..).zip(rules).filter(|rule| rule.1).map(|rule| End::Fails(rule.0));
        let found = pages.then_some(End::Address(0)).into_iter().chain([End::Past]);
        ends.extend(broken.chain(found).map(|end| (level.levels, level.level, end)));
    }
    ends
}

fn all_met(guest: &Guest, totals: &mut Totals) {
    let mut tally = Tally::new("vcpu_page_walk, each rule at each level (document 02)");
    for end in guest.met.union(&ends()) {
        tally.compare(guest.met.contains(end) && ends().contains(end), || format!("{end:?} is only in one of both"));
    }
    totals.add(tally);
}

pub fn run(random: &mut Random, cases: u64, totals: &mut Totals) {
    let mut guest = Guest::new();
    worked(random, &mut guest, totals);
    bits_and_ends(random, &mut guest, totals);
    rights(random, &mut guest, totals);
    all_met(&guest, totals);
    changed(random, cases, &mut guest, totals);
}
