//! Lists of inputs and the original's answers, one pair of files NAME.in and NAME.out for each leaf. The
//! formats are in README.md.
//!
//!   leaf_lists FOLDER [SEED]
//!
//! Equal seeds give equal bytes. No input file is longer than 65,536 bytes.

#[path = "lists/exit_report.rs"]
mod exit_report;
#[path = "lists/setup.rs"]
mod setup;

use oracle::generate::Random;
use oracle::leaves;
use oracle::*;
use std::fmt::Display;
use std::path::Path;

const LISTS: [(&str, fn(&mut Random) -> List); 21] = [
    ("set_control", set_control),
    ("vectors", vectors),
    ("inject_event", inject_event),
    ("encodings", encodings),
    ("fields", fields),
    ("registers", registers),
    ("ept_pointer", ept_pointer),
    ("io_intercepts", io_intercepts),
    ("msr_intercepts", msr_intercepts),
    ("set_cr", set_cr),
    ("update_efer", update_efer),
    ("io_exit_info", io_exit_info),
    ("cr_access_info", cr_access_info),
    ("interrupt_exit_info", interrupt_exit_info),
    ("exit_info", exit_info),
    ("get_cpu_mode", get_cpu_mode),
    ("get_ptw_info", get_ptw_info),
    ("gla2gva", gla2gva),
    ("setup", setup::list),
    ("exit_report", exit_report::list),
    ("casesheet", casesheet),
];

/// Random cases are added up to this number of bytes of input, or to this number of cases.
const ROOM: usize = 62_000;
const CASES: usize = 5000;
const LONGEST_INPUT: usize = 65_536;

/// The cases and their answers, a line each.
#[derive(Default)]
struct List {
    count: usize,
    cases: String,
    answers: String,
    /// What the first line, a comment, gives in the output, if not itself.
    comment_gives: Option<&'static str>,
}

impl List {
    /// A case and its answer: the numbers, or the number of the refusal.
    fn add(&mut self, case: &[u64], answer: Result<Vec<u64>, u32>) {
        self.count += 1;
        self.cases += &line(case);
        self.answers += &match answer {
            Ok(numbers) => line(&numbers),
            Err(number) => format!("refused {number}\n"),
        };
    }

    fn has_room(&self) -> bool {
        self.cases.len() < ROOM && self.count < CASES
    }

    fn call<T>(&mut self, case: &[u64], call: Call, outcome: Outcome<T>, numbers: impl FnOnce(T) -> Vec<u64>) {
        self.add(case, outcome.map(numbers).map_err(|failure| number_of(call, &failure)))
    }
}

/// Small hexadecimal digits without leading zeros, parted by one blank.
fn line(numbers: &[u64]) -> String {
    let words: Vec<String> = numbers.iter().map(|number| format!("{number:x}")).collect();
    words.join(" ") + "\n"
}

fn number_of(call: Call, failure: &Failure) -> u32 {
    refusal_number(call, failure).unwrap_or_else(|| panic!("{call:?}: no number for {failure:?}"))
}

fn set_control(random: &mut Random) -> List {
    let mut list = List::default();
    let add = |list: &mut List, words: [u32; 5]| {
        let [allowed0, allowed1, old, set, clear] = words;
        let outcome = leaves::set_control(allowed0, allowed1, old, set, clear);
        list.call(&words.map(u64::from), Call::ControlWord, outcome, |word| vec![word as u64]);
    };
    for (old, set, clear) in [(0x16, 9, 0), (0x16, 1, 1), (0x16, 0, 2)] {
        add(&mut list, [0x16, 0x7F, old, set, clear]);
    }
    // Every combination of one bit.
    for bit in 0..32 {
        for which in 0..32 {
            add(&mut list, [0, 1, 2, 3, 4].map(|i| (which >> i & 1) << bit));
        }
    }
    while list.has_room() {
        add(&mut list, random.control_words());
    }
    list
}

/// Whether the original decides of a vector: of 1 and 21 document 02 does.
fn compared_vector(vector: u8) -> bool {
    !matches!(vector, 1 | 21)
}

fn vectors(_: &mut Random) -> List {
    let mut list = List::default();
    for vector in (0..=255).filter(|&vector| compared_vector(vector)) {
        for coded in [false, true] {
            let answer = [
                leaves::event_type(vector) as u64,
                leaves::event_has_code(vector) as u64,
                leaves::event_is_soft(vector) as u64,
                leaves::event_word(vector, coded.then_some(0)) as u64,
            ];
            list.add(&[vector as u64, coded as u64], Ok(answer.to_vec()));
        }
    }
    list
}

/// Entry interruption information, exception error code, instruction length.
const ENTRY_FIELDS: [u32; 3] = [0x4016, 0x4018, 0x401A];
/// Exit interruption error code, exit instruction length.
const EXIT_FIELDS: [u32; 2] = [0x4406, 0x440C];

/// The original gives codes in every mode. The port gives them while CR0.PE is set, so its session has PE set here.
fn inject_event(random: &mut Random) -> List {
    let mut list = List::default();
    let mut oracle = Oracle::new();
    let mut add = |list: &mut List, random: &mut Random, vector: u8, coded: bool| {
        let code = if coded { random.word32() } else { 0 };
        let mut case = vec![vector as u64, coded as u64, code as u64];
        for encoding in EXIT_FIELDS.into_iter().chain(ENTRY_FIELDS) {
            let word = random.word32() as u64;
            oracle.store_field(encoding, word);
            case.push(word);
        }
        oracle.inject_event(vector, coded.then_some(code)).expect("an event");
        let after = ENTRY_FIELDS.map(|encoding| oracle.read_field(encoding).expect("a field"));
        list.add(&case, Ok(after.to_vec()));
    };
    for vector in (0..=255).filter(|&vector| compared_vector(vector)) {
        add(&mut list, random, vector, false);
        add(&mut list, random, vector, true);
    }
    while list.has_room() {
        let (vector, code) = random.event();
        if compared_vector(vector) {
            add(&mut list, random, vector, code.is_some());
        }
    }
    list
}

/// Document 01's table leaves out VmcsControl16.
fn in_table(encoding: u32) -> bool {
    !FIELDS[..FIELDS_BEFORE_TABLE].iter().any(|field| field.0 == encoding)
}

fn encodings(_: &mut Random) -> List {
    let mut list = List::default();
    let mut oracle = Oracle::new();
    let mut add = |from: u32, count: u32| {
        let mut masks = [0u64; 4];
        for i in 0..count {
            assert!(in_table(from + i));
            let write = |oracle: &mut Oracle, value| oracle.write_field(from + i, value).is_ok();
            let accepted = [
                oracle.read_field(from + i).is_ok(),
                write(&mut oracle, 0),
                write(&mut oracle, 0x1_0000),
                write(&mut oracle, 0x1_0000_0000),
            ];
            for (mask, accepted) in masks.iter_mut().zip(accepted) {
                *mask |= (accepted as u64) << i;
            }
        }
        list.add(&[from as u64, count as u64], Ok(masks.to_vec()));
    };
    add(1, 1);
    add(3, 1);
    add(5, 0x3B);
    for from in (0x40..0x1_0000).step_by(0x40) {
        add(from, 0x40);
    }
    // Encodings of fields with a higher bit set.
    for high in 16..32 {
        for low in [0x800, 0x2000, 0x4000, 0x6800] {
            add(1 << high | low, 0x40);
        }
    }
    list
}

fn fields(random: &mut Random) -> List {
    let mut list = List::default();
    let mut oracle = Oracle::new();
    let read = |list: &mut List, oracle: &mut Oracle, encoding: u32| {
        list.add(&[0, encoding as u64, 0], oracle.read_field(encoding).map(|value| vec![value]));
    };
    let write = |list: &mut List, oracle: &mut Oracle, encoding: u32, value: u64| {
        let after = oracle.write_field(encoding, value).and_then(|()| oracle.read_field(encoding));
        list.add(&[1, encoding as u64, value], after.map(|value| vec![value]));
    };
    let table = &FIELDS[FIELDS_BEFORE_TABLE..];
    for &(encoding, _) in table {
        let greatest = u64::MAX >> (64 - field_bits(encoding));
        write(&mut list, &mut oracle, encoding, greatest);
        read(&mut list, &mut oracle, encoding);
        if greatest < u64::MAX {
            write(&mut list, &mut oracle, encoding, greatest + 1);
        }
    }
    while list.has_room() {
        let (listed, _) = random.pick(table);
        let encoding = match random.below(10) {
            0 => listed ^ 1 << random.below(32),
            1 => listed + 1,
            2 => random.word32(),
            _ => listed,
        };
        if !in_table(encoding) {
            continue;
        }
        if random.chance(40) {
            read(&mut list, &mut oracle, encoding);
        } else {
            let fitting = random.chance(80);
            let value = random.word() >> if fitting { 64 - field_bits(encoding) } else { 0 };
            write(&mut list, &mut oracle, encoding, value);
        }
    }
    for &(encoding, _) in table {
        read(&mut list, &mut oracle, encoding);
    }
    list
}

fn registers(random: &mut Random) -> List {
    let mut list = List::default();
    let mut oracle = Oracle::new();
    let get = |list: &mut List, oracle: &mut Oracle, index: u8| {
        list.call(&[0, index as u64, 0], Call::Register, oracle.get_register(index), |value| vec![value]);
    };
    let set = |list: &mut List, oracle: &mut Oracle, index: u8, value: u64| {
        let after = oracle.set_register(index, value).and_then(|()| oracle.get_register(index));
        list.call(&[1, index as u64, value], Call::Register, after, |value| vec![value]);
    };
    for index in 0..=255 {
        set(&mut list, &mut oracle, index, index as u64 + 1);
    }
    for index in 0..=255 {
        get(&mut list, &mut oracle, index);
    }
    while list.has_room() {
        let index = if random.chance(90) { random.below(16) } else { random.below(256) } as u8;
        if random.chance(50) {
            set(&mut list, &mut oracle, index, random.word());
        } else {
            get(&mut list, &mut oracle, index);
        }
    }
    list
}

fn ept_pointer(random: &mut Random) -> List {
    let mut list = List::default();
    let add = |list: &mut List, root: u64| list.add(&[root], Ok(vec![leaves::ept_pointer(root)]));
    (0..64).for_each(|bit| add(&mut list, 1 << bit));
    (0..0x1100).step_by(17).for_each(|root| add(&mut list, root));
    [0x1FFF, 0xFFF, 0x1000, u64::MAX].into_iter().for_each(|root| add(&mut list, root));
    while list.has_room() {
        add(&mut list, random.word());
    }
    list
}

/// A number that depends on every byte and its place.
fn digest(frame: &[u8]) -> u64 {
    frame.iter().fold(0, |sum, &byte| (sum * 257 + byte as u64 + 1) % 4_294_967_291)
}

fn io_intercepts(random: &mut Random) -> List {
    let mut list = List::default();
    let mut oracle = Oracle::new();
    let mut add = |list: &mut List, base: u32, count: u32, intercept: bool| {
        let outcome = oracle.attempt(|oracle| oracle.set_io_intercept_of_range(base, count, intercept));
        let [a, b, _] = oracle.frames().map(|frame| digest(frame));
        list.call(&[base as u64, count as u64, intercept as u64], Call::PortEdit, outcome, |()| vec![a, b]);
    };
    for base in [0, 0x604, 0x1FFF, 0x8000, 0x8001, 0x9FFF] {
        add(&mut list, base, 1, true);
    }
    for base in [0, 0x8000] {
        add(&mut list, base, 0x2000, true);
        add(&mut list, base + 1, 0x1FFE, false);
        add(&mut list, base, 0x2000, false);
    }
    while list.has_room() {
        let (base, count) = random.comparable_ports();
        add(&mut list, base, count, random.chance(60));
    }
    list
}

fn msr_intercepts(random: &mut Random) -> List {
    let mut list = List::default();
    let mut oracle = Oracle::new();
    let mut add = |list: &mut List, kind: u64, msr: u32, intercept: bool| {
        let outcome = oracle.attempt(|oracle| match kind {
            0 => oracle.set_read_intercept(msr, intercept),
            1 => oracle.set_write_intercept(msr, intercept),
            _ => oracle.set_msr_intercept_of_range(msr, intercept),
        });
        let digest = digest(oracle.frames()[2]);
        list.call(&[kind, msr as u64, intercept as u64], Call::MsrEdit, outcome, |()| vec![digest]);
    };
    for msr in [0, 0x1FFF, 0x2000, 0xBFFF_FFFF, 0xC000_0000, 0xC000_0080, 0xC000_1FFF, 0xC000_2000, u32::MAX] {
        (0..3).for_each(|kind| add(&mut list, kind, msr, true));
    }
    while list.has_room() {
        add(&mut list, random.below(3), random.msr(), random.chance(60));
    }
    list
}

/// Each control register: the field, its read shadow, its guest/host mask.
const CR0_FIELDS: [u32; 3] = [0x6800, 0x6004, 0x6000];
const CR4_FIELDS: [u32; 3] = [0x6804, 0x6006, 0x6002];

fn set_cr(random: &mut Random) -> List {
    let mut list = List::default();
    let mut oracle = Oracle::new();
    let mut add = |list: &mut List, cr: u8, value: u64, fixed0: u64, fixed1: u64| {
        oracle.set_cr(cr, value, fixed0, fixed1).expect("CR0 or CR4");
        let fields = if cr == 0 { CR0_FIELDS } else { CR4_FIELDS };
        let after = fields.map(|encoding| oracle.read_field(encoding).expect("a field"));
        list.add(&[cr as u64, value, fixed0, fixed1], Ok(after.to_vec()));
    };
    add(&mut list, 0, 0x6000_0010, 0x8000_0021, 0xFFFF_FFFF);
    for cr in [0, 4] {
        for bit in 0..64 {
            for (value, fixed0, fixed1) in [(0, 0, 0), (1, 0, 0), (0, 0, 1), (1, 0, 1), (0, 1, 1), (1, 1, 1)] {
                add(&mut list, cr, value << bit, fixed0 << bit, fixed1 << bit);
            }
        }
    }
    while list.has_room() {
        let fixed1 = random.word() | random.word();
        add(&mut list, random.pick(&[0, 4]), random.word(), random.word() & fixed1, fixed1);
    }
    list
}

const EFER_FIELD: u32 = 0x2806;
const ENTRY_CONTROLS: u32 = 0x4012;

fn update_efer(random: &mut Random) -> List {
    let mut list = List::default();
    let mut oracle = Oracle::new();
    let mut add = |list: &mut List, efer: u64, entry: u32, allowed0: u32, allowed1: u32| {
        oracle.store_field(EFER_FIELD, efer);
        oracle.store_field(ENTRY_CONTROLS, entry as u64);
        let outcome = oracle.update_efer(allowed0, allowed1);
        let after = [EFER_FIELD, ENTRY_CONTROLS].map(|encoding| oracle.read_field(encoding).expect("a field"));
        let case = [efer, entry as u64, allowed0 as u64, allowed1 as u64];
        list.call(&case, Call::UpdateEfer, outcome, |()| after.to_vec());
    };
    for bit in 0..64 {
        for other in [0, 0x100, 0x400, 0x500] {
            add(&mut list, 1 << bit | other, 0, 0, 0x200);
        }
    }
    for efer in [0, 0x100, 0x400, 0x500] {
        for entry in [0, 0x200] {
            for (allowed0, allowed1) in [(0, 0), (0, 0x200), (0x200, 0x200)] {
                add(&mut list, efer, entry, allowed0, allowed1);
            }
        }
    }
    while list.has_room() {
        let efer = if random.chance(50) {
            random.pick(&[0, 0x100, 0x400, 0x500, 0xD01, !0x400, !0x100])
        } else {
            random.word()
        };
        let allowed1 = random.word32() | if random.chance(80) { 0x200 } else { 0 };
        add(&mut list, efer, random.word32(), random.word32() & allowed1, allowed1);
    }
    list
}

fn io_exit_info(random: &mut Random) -> List {
    let mut list = List::default();
    let add = |list: &mut List, qualification: u64| {
        let outcome = leaves::io_exit_info(qualification);
        list.call(&[qualification], Call::Exit(30), outcome, |(size, input, string, repeat, port)| {
            vec![size as u64, input as u64, string as u64, repeat as u64, port as u64]
        });
    };
    for port in [0, 0x60, 0x604, 0x7FFF, 0x8000, 0xFFFF] {
        (0..64).for_each(|low| add(&mut list, port << 16 | low));
    }
    (0..64).for_each(|bit| add(&mut list, 1 << bit));
    while list.has_room() {
        add(&mut list, random.word());
    }
    list
}

fn cr_access_info(random: &mut Random) -> List {
    let mut list = List::default();
    let add = |list: &mut List, qualification: u64| {
        let outcome = leaves::cr_access_info(qualification);
        list.call(&[qualification], Call::Exit(28), outcome, |(cr, kind, lmsw, register, data)| {
            [cr, kind, lmsw, register, data].map(u64::from).to_vec()
        });
    };
    for low in 0..64 {
        (0..16).for_each(|register| add(&mut list, register << 8 | low));
    }
    (0..64).for_each(|bit| add(&mut list, 1 << bit));
    while list.has_room() {
        add(&mut list, random.word());
    }
    list
}

fn interrupt_exit_info(random: &mut Random) -> List {
    let mut list = List::default();
    let add = |list: &mut List, info: u32| {
        let outcome = leaves::interrupt_exit_info(info, 0);
        list.call(&[info as u64], Call::Exit(1), outcome, |(vector, kind, code, valid)| {
            vec![vector as u64, kind as u64, code.is_some() as u64, valid as u64]
        });
    };
    for kind in 0..16 {
        for valid in [0, 1 << 31] {
            [0, 1, 31, 32, 255].into_iter().for_each(|vector| add(&mut list, valid | kind << 8 | vector));
        }
    }
    (0..32).for_each(|bit| add(&mut list, 1 << bit));
    while list.has_room() {
        add(&mut list, random.word32());
    }
    list
}

fn exit_info(random: &mut Random) -> List {
    let mut list = List::default();
    let add = |list: &mut List, reason: u32| {
        let outcome = leaves::exit_info(reason, 0, 0);
        list.call(&[reason as u64], Call::Exit(reason), outcome, |(reason, failed, _, _)| {
            vec![failed as u64, reason as u64]
        });
    };
    // Document 01 leaves reasons above 64 out of the comparison, since the original knows 65 to 69.
    let compared = |reason: u32| !(65..=69).contains(&(reason & 0xFFFF));
    for reason in 0..=80 {
        for full in [0, 1 << 16, 1 << 27, 1 << 30, 1 << 31, 0xFFFF << 16].map(|high| high | reason) {
            if compared(full) {
                add(&mut list, full);
            }
        }
    }
    while list.has_room() {
        let low = if random.chance(80) { random.below(65) as u32 } else { random.word32() & 0xFFFF };
        let reason = random.word32() << 16 | low;
        if compared(reason) {
            add(&mut list, reason);
        }
    }
    list
}

const CR0: u32 = 0x6800;
const CR3: u32 = 0x6802;
const CR4: u32 = 0x6804;
const CS_BASE: u32 = 0x6808;
const CS_RIGHTS: u32 = 0x4816;
const SS_RIGHTS: u32 = 0x4818;

fn get_cpu_mode(random: &mut Random) -> List {
    let mut list = List::default();
    let mut oracle = Oracle::new();
    let mut add = |list: &mut List, host_efer: u64, cs_rights: u32, cr0: u64| {
        oracle.store_field(CS_RIGHTS, cs_rights as u64);
        oracle.store_field(CR0, cr0);
        list.add(&[host_efer, cs_rights as u64, cr0], Ok(vec![oracle.cpu_mode(host_efer) as u64]));
    };
    for bit in 0..64 {
        for others in [0, 1, 0x2000, 0x2001] {
            add(&mut list, 1 << bit, others, others as u64);
            add(&mut list, 0x400, others ^ 1 << (bit % 32), 0);
            add(&mut list, 0, others, 1 << bit);
        }
    }
    while list.has_room() {
        let host_efer = if random.chance(50) { random.word() } else { random.word() | 0x400 };
        add(&mut list, host_efer, random.word32(), random.word());
    }
    list
}

fn get_ptw_info(random: &mut Random) -> List {
    let mut list = List::default();
    let mut oracle = Oracle::new();
    let mut add = |list: &mut List, [cr0, cr3, cr4, efer]: [u64; 4], ss_rights: u32| {
        let words = [(CR0, cr0), (CR3, cr3), (CR4, cr4), (EFER_FIELD, efer), (SS_RIGHTS, ss_rights as u64)];
        words.iter().for_each(|&(encoding, value)| oracle.store_field(encoding, value));
        let w = oracle.page_walk();
        let access = [w.is_user_mode_access, w.is_write_access, w.is_inst_fetch];
        let flags = [w.pse, w.wp, w.nxe, w.is_smap_on, w.is_smep_on];
        let mut answer = vec![w.top_entry, w.level, w.width as u64];
        answer.extend(access.into_iter().chain(flags).map(u64::from));
        list.add(&words.map(|word| word.1), Ok(answer));
    };
    // Every combination of the bits that count, with each access level of SS.
    for which in 0..256u64 {
        let bit = |i: u32, at: u32| (which >> i & 1) << at;
        let cr4 = bit(2, 4) | bit(3, 5) | bit(4, 20) | bit(5, 21);
        add(&mut list, [bit(0, 31) | bit(1, 16), which, cr4, bit(6, 10) | bit(7, 11)], (which as u32 & 3) << 5);
    }
    while list.has_room() {
        let paging = if random.chance(80) { 1 << 31 } else { 0 };
        add(&mut list, [random.word() | paging, random.word(), random.word(), random.word()], random.word32());
    }
    list
}

fn gla2gva(random: &mut Random) -> List {
    let mut list = List::default();
    let mut oracle = Oracle::new();
    let mut add = |list: &mut List, host_efer: u64, cs_rights: u32, cs_base: u64, address: u64| {
        oracle.store_field(CS_RIGHTS, cs_rights as u64);
        oracle.store_field(CS_BASE, cs_base);
        let outcome = oracle.gla2gva(host_efer, address);
        list.call(&[host_efer, cs_rights as u64, cs_base, address], Call::Gla2gva, outcome, |sum| vec![sum]);
    };
    for (host_efer, cs_rights) in [(0, 0), (0, 0x2000), (0x400, 0), (0x400, 0x2000)] {
        for base in [0, 1, 0xFFFF_0000, u64::MAX] {
            for address in [0, 1, u64::MAX - base, (u64::MAX - base).wrapping_add(1), u64::MAX] {
                add(&mut list, host_efer, cs_rights, base, address);
            }
        }
    }
    while list.has_room() {
        let host_efer = random.pick(&[0, 0x400, 0x500, !0x400]);
        add(&mut list, host_efer, random.word32(), random.word(), random.word());
    }
    list
}

/// The input of document 01's program casesheet, which takes a comment for a bad line.
fn casesheet(random: &mut Random) -> List {
    let mut list = List { comment_gives: Some("-\tbad\n"), ..List::default() };
    while list.has_room() {
        let name: String = (0..1 + random.below(16)).map(|_| (b'a' + random.below(26) as u8) as char).collect();
        let [allowed0, allowed1, old, set, clear] = random.control_words();
        list.count += 1;
        list.cases += &format!("{name}\t{allowed0:08x}\t{allowed1:08x}\t{old:08x}\t{set:08x}\t{clear:08x}\n");
        list.answers += &match leaves::set_control(allowed0, allowed1, old, set, clear) {
            Ok(word) => format!("{name}\t{word:08x}\n"),
            Err(failure) => format!("{name}\trefused {}\n", number_of(Call::ControlWord, &failure)),
        };
    }
    list
}

fn write_file(path: &Path, text: &str) {
    std::fs::write(path, text).unwrap_or_else(|error| panic!("{}: {error}", path.display()));
}

fn main() {
    let arguments: Vec<String> = std::env::args().skip(1).collect();
    let folder = arguments.first().expect("usage: leaf_lists FOLDER [SEED]");
    let seed: u64 = arguments.get(1).map_or(1, |seed| seed.parse().expect("a seed"));
    let file = |name: &str, end: &dyn Display| Path::new(folder).join(format!("{name}.{end}"));
    for (name, make) in LISTS {
        let list = make(&mut Random::new(seed, true));
        let command = format!("# {name}, made by oracle/lists FOLDER {seed}\n");
        let input = command.clone() + &list.cases;
        assert!(input.len() <= LONGEST_INPUT, "{name}: {} bytes", input.len());
        write_file(&file(name, &"in"), &input);
        let first = list.comment_gives.unwrap_or(&command);
        write_file(&file(name, &"out"), &(first.to_string() + &list.answers));
        println!("{name}: {} cases", list.count);
    }
}
