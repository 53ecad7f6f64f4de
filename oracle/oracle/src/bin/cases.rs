//! Document 01's worked cases, edges and statements of fact, given to the original: each must answer as
//! document 01 says. Where the two are meant to differ, see the program `differences`.

use oracle::leaves::*;
use oracle::samples::{exit, ready, report, show, usual_setup};
use oracle::*;
use std::process::ExitCode;

const IO: u32 = 30;
const CR: u32 = 28;
const CPUID: u32 = 10;

#[derive(Default)]
struct Sheet {
    same: usize,
    different: usize,
}

impl Sheet {
    fn line(&mut self, name: &str, expected: &str, original: &str) {
        if expected == original {
            self.same += 1;
            println!("{name}\n    {original}");
        } else {
            self.different += 1;
            println!("{name}\n    DIFFERENT: document 01 {expected} | rust {original}");
        }
    }

    fn hex(&mut self, name: &str, expected: u64, original: u64) {
        self.line(name, &format!("{expected:#x}"), &format!("{original:#x}"));
    }
}

fn main() -> ExitCode {
    let mut sheet = Sheet::default();
    worked(&mut sheet);
    edges(&mut sheet);
    facts(&mut sheet);
    exits(&mut sheet);
    println!("cases: {} as document 01 says, {} differ", sheet.same, sheet.different);
    ExitCode::from((sheet.different > 0) as u8)
}

fn worked(sheet: &mut Sheet) {
    let word = |old, set, clear| show(Call::ControlWord, set_control(0x16, 0x7F, old, set, clear));
    sheet.line("P1 allowed-0 0x16, allowed-1 0x7F, old 0x16, set 9", "1f", &word(0x16, 9, 0));
    sheet.line("P2 set 1, clear 1", "refused 7", &word(0x16, 1, 1));
    sheet.line("P3 set 0, clear 2", "refused 9", &word(0x16, 0, 2));

    let mut oracle = ready();
    sheet.hex("P4 first CR0", 0x30, oracle.read_field(0x6800).unwrap());
    sheet.hex("P4 CR0 mask", 0xFFFF_FFFF_6000_0020, oracle.read_field(0x6000).unwrap());
    sheet.hex("P5 EPT root 0x1FFF (EPTPointer)", 0x105E, ept_pointer(0x1FFF));
    sheet.hex("P5 EPT root 0x1FFF (setup's field)", 0x105E, oracle.read_field(0x201A).unwrap());

    let frames = oracle.frames();
    let ones: u32 = frames[0].iter().chain(frames[1]).map(|byte| byte.count_ones()).sum();
    sheet.line("P6 port 0x604: A, byte 192, bit 4, and no other", "16 1", &format!("{} {ones}", frames[0][192]));

    let mut bare = Oracle::new();
    bare.set_write_intercept(0xC000_0080, true).expect("MSR edit");
    let bytes: Vec<_> = bare.frames()[2].iter().enumerate().filter(|(_, byte)| **byte != 0).collect();
    sheet.line("P7 write of MSR 0xC0000080: byte 3088, bit 0", "[(3088, 1)]", &format!("{bytes:?}"));

    // Document 01's words, as the original has them. The port follows document 02 (N7) for vector 21, and for codes while CR0.PE is clear, as it is here.
    for (name, vector, code, expected) in
        [("P8 vector 14, code 2", 14, Some(2), 0x8000_0B0E), ("P9 vector 21", 21, None, 0x8000_0715)]
    {
        let mut oracle = ready();
        oracle.queue_event(vector, code);
        let entered = oracle.enter(1).expect("entry");
        assert_eq!(entered, Entered { launch: true, event: EntryEvent::Written });
        sheet.hex(name, expected, oracle.read_field(0x4016).unwrap());
        if code.is_some() {
            sheet.hex("P8 code", 2, oracle.read_field(0x4018).unwrap());
        }
    }

    let cpuid = |leaf: u64, rcx: u64, words: [u32; 4]| {
        let mut oracle = ready();
        let mut report = report(&mut oracle, CPUID);
        report.registers[0] = leaf;
        report.registers[1] = rcx;
        report.cpuid = words;
        assert_eq!(exit(&mut oracle, &report), "Nothing");
        let r = oracle.registers();
        (format!("{:x} {:x} {:x} {:x}", r[0], r[3], r[1], r[2]), oracle.read_field(0x681E).unwrap())
    };
    let (words, rip) = cpuid(0x4000_0000, 0, [1, 2, 3, 4]);
    sheet.line("P10 leaf 0x40000000: EAX EBX ECX EDX", "40000001 524d5652 56524d56 4d56524d", &words);
    sheet.hex("P10 RIP from 0x1000", 0x1002, rip);
    let (words, _) = cpuid(1, 0, [0x0008_06EC, 5, 0x20, 0xFFFF_FFFF]);
    sheet.line("P11 leaf 1, host EAX 0x000806EC: EAX EBX ECX EDX", "8066c 5 80000000 ffffffff", &words);

    for (name, rax, expected) in [
        ("P12 qualification 0x06040001, RAX 0x2000", 0x2000, "SystemDown"),
        ("P13 RAX 0x12000", 0x12000, "IoWrite { port: 604, bytes: 2, data: 2000 }"),
    ] {
        let mut oracle = ready();
        let mut report = report(&mut oracle, IO);
        report.qualification = 0x0604_0001;
        report.registers[0] = rax;
        sheet.line(name, expected, &exit(&mut oracle, &report));
    }
}

fn edges(sheet: &mut Sheet) {
    let port = |port, count| show(Call::PortEdit, Oracle::new().set_io_intercept_of_range(port, count, true));
    sheet.line("port 0x1FFF count 1", "()", &port(0x1FFF, 1));
    sheet.line("port 0x8000 count 1", "()", &port(0x8000, 1));
    sheet.line("port 65535 count 2", "refused 10", &port(65535, 2));
    sheet.line("port 65536 count 0", "()", &port(65536, 0));
    sheet.line("port 2^32 - 1 count 1 (the Rust's sum passes 2^32)", "refused 10", &port(u32::MAX, 1));
    sheet.line("port 2^32 - 1 count 0", "()", &port(u32::MAX, 0));
    let msr = |msr| show(Call::MsrEdit, Oracle::new().set_read_intercept(msr, true));
    sheet.line("MSR 0x1FFF", "()", &msr(0x1FFF));
    sheet.line("MSR 0x2000", "refused 11", &msr(0x2000));
    sheet.line("MSR 0xBFFFFFFF", "refused 11", &msr(0xBFFF_FFFF));
    sheet.line("MSR 0xC0001FFF", "()", &msr(0xC000_1FFF));
    sheet.line("MSR 0xC0002000", "refused 11", &msr(0xC000_2000));

    for (vector, expected) in [(31, "Written"), (32, "Held")] {
        let mut oracle = ready();
        oracle.queue_event(vector, None);
        let entered = oracle.enter(1).expect("entry");
        sheet.line(&format!("IF clear, vector {vector}"), expected, &format!("{:?}", entered.event));
        let window = oracle.read_field(0x4002).unwrap() >> 2 & 1;
        sheet.hex("    primary bit 2", (expected == "Held") as u64, window);
    }
    let inject = |vector| show(Call::InjectInterrupt, ready().inject_interrupt(vector));
    sheet.line("inject_interrupt 0", "refused 12", &inject(0));
    sheet.line("inject_interrupt 255", "()", &inject(255));
    for (index, expected) in [(3, "0"), (4, "refused 23"), (15, "0"), (16, "refused 23")] {
        sheet.line(&format!("register {index}"), expected, &show(Call::Register, ready().get_register(index)));
    }
}

fn facts(sheet: &mut Sheet) {
    sheet.line("fields without VmcsControl16", "154", &(FIELDS.len() - FIELDS_BEFORE_TABLE).to_string());

    // Types and codes of all vectors, by document 01; of 1 and 21 the port follows document 02 (N7).
    let document_type = |vector: u8| match vector {
        1 => 5,
        2 => 2,
        3 | 4 => 6,
        0..=20 => 3,
        21..=31 => 7,
        _ => 0,
    };
    let wrong: Vec<_> = (0..=255).filter(|&v| event_type(v) != document_type(v)).collect();
    sheet.line("vectors with another type", "[]", &format!("{wrong:?}"));
    let coded: Vec<_> = (0..=255).filter(|&v| event_has_code(v)).collect();
    sheet.line("vectors with a code", "[8, 10, 11, 12, 13, 14, 17]", &format!("{coded:?}"));

    // Control words with nothing demanded and nothing old: the set bits.
    let mut args = usual_setup();
    args.capabilities.pairs = [0xFFFF_FFFF << 32; 5];
    args.capabilities.plain = [0; 4];
    let words = |args: &Setup| {
        let mut oracle = Oracle::new();
        oracle.setup(args).expect("setup");
        [0x4000, 0x4002, 0x401E, 0x400C, 0x4012].map(|encoding| oracle.read_field(encoding).unwrap())
    };
    let set = words(&args);
    sheet.line("set bits", "[9, 92000000, 82, 3c8200, c000]", &format!("{set:x?}"));
    for (name, bit, rdtscp, invpcid, xsaves) in [
        ("RDTSCP", 0x8, true, false, false),
        ("INVPCID", 0x1000, false, true, false),
        ("XSAVES", 0x10_0000, false, false, true),
    ] {
        let args = Setup { rdtscp, invpcid, xsaves, ..args.clone() };
        sheet.hex(&format!("secondary with {name}"), 0x82 | bit, words(&args)[2]);
    }
    // Old words all ones: those bits stay that are not cleared.
    let mut full = args.clone();
    full.capabilities.plain = [0xFFFF_FFFF; 4];
    let old = words(&full);
    sheet.line(
        "old words all ones (secondary's old word is its pair's low half, here 0)",
        "[ffffffff, ffe67fff, 82, ffffffff, ffffffff]",
        &format!("{old:x?}"),
    );
    // Refusals of setup, word by word.
    for (word, name) in ["pin", "primary", "secondary", "exit", "entry"].iter().enumerate() {
        let mut bad = args.clone();
        bad.capabilities.pairs[word] = 1;
        sheet.line(
            &format!("setup, {name} pair with allowed-0 outside allowed-1"),
            "refused 6",
            &show(Call::Setup, Oracle::new().setup(&bad)),
        );
        bad.capabilities.pairs[word] = 0;
        sheet.line(
            &format!("setup, {name} pair that allows nothing"),
            "refused 8",
            &show(Call::Setup, Oracle::new().setup(&bad)),
        );
    }
    let mut bad = args.clone();
    bad.capabilities.pairs[1] |= 0x8000;
    sheet.line("setup, primary demands bit 15", "refused 9", &show(Call::Setup, Oracle::new().setup(&bad)));

    let mut oracle = ready();
    let counts: Vec<u32> = oracle.frames()[2].chunks(1024).map(|q| q.iter().map(|b| b.count_ones()).sum()).collect();
    sheet.line("MSR traps of setup by quarter (0xE1, 0x800 to 0x83F)", "[65, 0, 65, 0]", &format!("{counts:?}"));
    // Bits 0 of bytes: 0xE1 is byte 28 bit 1; 0x800 is byte 256.
    sheet.hex("    byte 28", 2, oracle.frames()[2][28] as u64);
    sheet.hex("    byte 263", 0xFF, oracle.frames()[2][263] as u64);
    sheet.hex("RFLAGS after setup", 2, oracle.read_field(0x6820).unwrap());
    sheet.hex("interruptibility after setup", 0, oracle.read_field(0x4824).unwrap());

    let mut args = usual_setup();
    (args.host.pat, args.guest_pat) = (1, 2);
    (args.host.tr, args.host.tr_base) = (0x40, 0xFEDC_BA98_7654_3210);
    let mut oracle = Oracle::new();
    oracle.setup(&args).expect("setup");
    sheet.hex("host PAT", 1, oracle.read_field(0x2C00).unwrap());
    sheet.hex("guest PAT", 2, oracle.read_field(0x2804).unwrap());
    sheet.hex("TR base through the descriptor", 0xFEDC_BA98_7654_3210, oracle.read_field(0x6C0A).unwrap());

    // Entry.
    let mut oracle = ready();
    let first = oracle.enter(0x7000).expect("entry");
    sheet.line("first entry", "launch", if first.launch { "launch" } else { "resume" });
    sheet.hex("    host RSP", 0x7000, oracle.read_field(0x6C14).unwrap());
    let second = oracle.enter(0x9000).expect("entry");
    sheet.line("second entry", "resume", if second.launch { "launch" } else { "resume" });
    sheet.hex("    host RSP", 0x7000, oracle.read_field(0x6C14).unwrap());

    // Interrupt-window exiting is set and cleared whatever the primary pair says.
    for (name, allowed0, allowed1, vector, exit_reason, expected) in [
        ("held entry, primary allowed-1 without bit 2: the word's bit 2", 0, !4u32, 32, None, 1),
        ("reason 7, primary allowed-0 with bit 2: the word's bit 2", 4, u32::MAX, 32, Some(7), 0),
    ] {
        let mut args = usual_setup();
        args.capabilities.pairs[1] = (allowed1 as u64) << 32 | allowed0;
        args.capabilities.plain[1] = 0;
        let mut oracle = Oracle::new();
        oracle.setup(&args).expect("setup");
        oracle.queue_event(vector, None);
        oracle.enter(0).expect("entry");
        if let Some(reason) = exit_reason {
            let report = report(&mut oracle, reason);
            oracle.exit(&report).expect("exit");
        }
        let bit = oracle.read_field(0x4002).unwrap() >> 2 & 1;
        sheet.hex(name, expected, bit);
    }

    // Soft events copy the exit instruction length; a code is the caller's, else the exit's. The port's words of 1 and of 14 are document 02's (N7).
    let mut oracle = ready();
    oracle.exit_clears_entry_valid = false;
    let mut report = report(&mut oracle, 12);
    report.instruction_length = 0x1234_5678;
    report.interruption_error_code = 0x99;
    exit(&mut oracle, &report);
    for vector in [3, 4, 1, 14, 6] {
        oracle.queue_event(vector, if vector == 6 { Some(7) } else { None });
    }
    let mut seen = Vec::new();
    for _ in 0..5 {
        oracle.store_field(0x4018, 0);
        oracle.store_field(0x401A, 0);
        oracle.enter(0).expect("entry");
        let word = |oracle: &mut Oracle, encoding| oracle.read_field(encoding).unwrap();
        seen.push((word(&mut oracle, 0x4016), word(&mut oracle, 0x4018), word(&mut oracle, 0x401A)));
    }
    sheet.line(
        "vectors 3, 4, 1, 14 (no code), 6 (code 7): word, code, length",
        "[(80000603, 0, 12345678), (80000604, 0, 12345678), (80000501, 0, 12345678), (80000b0e, 99, 0), (80000306, 0, 0)]",
        &format!("{seen:x?}"),
    );
}

fn exits(sheet: &mut Sheet) {
    // All reasons, with RIP 0x1000 and a length of 0x102.
    println!("reason: the original's answer, RIP's advance, primary bit 2 after (1 before)");
    for reason in (0..=70).chain([33 | 1 << 31, 34 | 1 << 31, 41 | 1 << 31, 10 | 1 << 31, 7 | 1 << 16]) {
        let mut oracle = ready();
        let mut report = report(&mut oracle, reason);
        report.instruction_length = 0x102;
        report.interruption_info = 0x8000_0020;
        let primary = oracle.read_field(0x4002).unwrap() | 4;
        oracle.store_field(0x4002, primary);
        oracle.store_field(0x681E, 0x1000);
        let text = exit(&mut oracle, &report);
        let advance = oracle.read_field(0x681E).unwrap().wrapping_sub(0x1000);
        println!(
            "    {reason:#x} ({}): {text}, {advance}, {}",
            reason & 0xFFFF,
            oracle.read_field(0x4002).unwrap() >> 2 & 1
        );
    }

    let with = |reason: u32, change: &dyn Fn(&mut Report)| {
        let mut oracle = ready();
        let mut report = report(&mut oracle, reason);
        change(&mut report);
        let text = exit(&mut oracle, &report);
        (text, oracle)
    };
    let mut one = |name: &str, reason, expected: &str, change: &dyn Fn(&mut Report)| {
        let (text, mut oracle) = with(reason, change);
        let rip = oracle.read_field(0x681E).unwrap();
        sheet.line(&format!("{name} [RIP {rip:#x}]"), expected, &text);
    };
    one("reason 1, valid clear", 1, "refused 16", &|r| r.interruption_info = 0x20);
    one("reason 1, type 7", 1, "ExternalInterrupt { vector: ff }", &|r| r.interruption_info = 0xFFFF_FFFF);
    one("reason 31, RCX 0x7FF", 31, "SysRegRead { addr: 7ff }", &|r| r.registers[1] = 0x7FF);
    one("reason 31, RCX 0x1_00000900", 31, "SysRegRead { addr: 100000900 }", &|r| r.registers[1] = 0x1_0000_0900);
    one("reason 31, RCX 0x1_00000800", 31, "ApicRead { msr: 800 }", &|r| r.registers[1] = 0x1_0000_0800);
    one("reason 31, RCX 0x8FF", 31, "ApicRead { msr: 8ff }", &|r| r.registers[1] = 0x8FF);
    one("reason 32, RCX 0x8FF", 32, "ApicWrite { msr: 8ff, value: 500000006 }", &|r| {
        (r.registers[1], r.registers[2], r.registers[0]) = (0x8FF, 0xF_0000_0005, 0xF_0000_0006)
    });
    one("reason 32, RCX 0xFFFFFFFF_FFFFFFFF", 32, "SysRegWrite { addr: ffffffffffffffff, value: 500000006 }", &|r| {
        (r.registers[1], r.registers[2], r.registers[0]) = (u64::MAX, 0xF_0000_0005, 0xF_0000_0006)
    });
    one("reason 31, RCX 0x800, RIP at the end", 31, "refused 17", &|r| (r.registers[1], r.rip) = (0x800, u64::MAX - 1));
    one("reason 18, RIP at the end", 18, "refused 17", &|r| r.rip = u64::MAX);
    one("reason 18, length 0x100, RIP at the end", 18, "Hypercall { nr: 0, args: [0, 0, 0, 0, 0, 0] }", &|r| {
        (r.rip, r.instruction_length) = (u64::MAX, 0x100)
    });
    one("reason 12, RIP at the end", 12, "Halt", &|r| r.rip = u64::MAX);
    for size in 0..7 {
        let expected = match size + 1 {
            1 | 2 | 4 => format!("IoRead {{ port: 60, bytes: {} }}", size + 1),
            _ => "Halt".to_string(),
        };
        one(&format!("reason 30, size {}", size + 1), IO, &expected, &|r| r.qualification = 0x60_0008 | size);
    }
    one("reason 30, string", IO, "Halt", &|r| r.qualification = 0x60_0010);
    one("reason 30, rep", IO, "Halt", &|r| r.qualification = 0x60_0020);
    one("reason 30, out of 1 byte", IO, "IoWrite { port: ffff, bytes: 1, data: ff }", &|r| {
        (r.qualification, r.registers[0]) = (0xFFFF_0000, u64::MAX)
    });
    one(
        "reason 30, out of 2 bytes to 0x604, RAX 0x1_00002000",
        IO,
        "IoWrite { port: 604, bytes: 2, data: 2000 }",
        &|r| (r.qualification, r.registers[0]) = (0x0604_0001, 0x1_0000_2000),
    );
    one("reason 44, data read", 44, "refused 21", &|_| ());
    one("reason 44, undefined type 5", 44, "refused 21", &|r| r.qualification = 0x5000);
    // Document 01 refuses every value, as the original does; the port follows document 02 (N1).
    one("reason 55, ECX 1", 55, "refused 20", &|r| r.registers[1] = 1);
    one("reason 55, RCX 0x1_00000000, XCR0 7", 55, "refused 19", &|r| (r.registers[1], r.registers[0]) = (1 << 32, 7));
    for value in [0, 1, 3, 7, 0xE7, 0x1F, 0xFF, u64::MAX] {
        one(&format!("reason 55, XCR0 {value:#x}"), 55, "refused 19", &|r| r.registers[0] = value);
    }
    let mut passed = 0;
    for value in 0..0x1000 {
        let (text, _) = with(55, &|r| r.registers[0] = value);
        passed += (text != "refused 19") as u32;
    }
    one(&format!("reason 55, XCR0 0 to 0xFFF: {passed} pass"), 55, "refused 19", &|_| ());
    for (name, qualification, expected) in [
        ("move to CR0", 0x000, "Nothing"),
        ("move to CR4", 0x004, "Nothing"),
        ("move to CR0 from RSP", 0x400, "Nothing"),
        ("move to CR3", 0x003, "refused 18"),
        ("move to CR8", 0x008, "refused 18"),
        ("move from CR0", 0x010, "refused 18"),
        ("CLTS", 0x020, "refused 18"),
        ("LMSW", 0x030, "refused 18"),
    ] {
        one(&format!("reason 28, {name}"), CR, expected, &|r| r.qualification = qualification);
    }

    // A move to CR0 with PG.
    let cr0 = |efer: u64, value: u64, entry_allowed1: u64| {
        let mut args = usual_setup();
        let mut oracle = Oracle::new();
        args.capabilities.pairs[4] = entry_allowed1 << 32;
        args.capabilities.plain[3] = 0;
        oracle.setup(&args).expect("setup");
        let mut report = report(&mut oracle, CR);
        (report.efer, report.registers[0]) = (efer, value);
        let text = exit(&mut oracle, &report);
        let fields = [0x2806, 0x4012, 0x6800, 0x6004, 0x681E].map(|encoding| oracle.read_field(encoding).unwrap());
        format!("{text} {fields:x?}")
    };
    let pg = 0x8000_0001;
    sheet.line(
        "CR0 with PG, EFER 0x100: EFER, entry word, CR0, shadow, RIP",
        "Nothing [500, c200, 80000021, 80000001, 1003]",
        &cr0(0x100, pg, 0xFFFF_FFFF),
    );
    sheet.line(
        "CR0 with PG, EFER all ones but LMA",
        "Nothing [fd01, c200, 80000021, 80000001, 1003]",
        &cr0(!0x400, pg, 0xFFFF_FFFF),
    );
    sheet.line(
        "CR0 with PG, EFER all ones",
        "Nothing [ffffffffffffffff, c000, 80000021, 80000001, 1003]",
        &cr0(u64::MAX, pg, 0xFFFF_FFFF),
    );
    sheet.line("CR0 without PG, EFER 0x100", "Nothing [100, c000, 21, 1, 1003]", &cr0(0x100, 1, 0xFFFF_FFFF));
    sheet.line(
        "CR0 all ones",
        "Nothing [500, c200, 9fffffff, ffffffffffffffff, 1003]",
        &cr0(0x100, u64::MAX, 0xFFFF_FFFF),
    );

    // CPUID leaves.
    let cpuid = |rax: u64, rcx: u64, words: [u32; 4]| {
        let (_, oracle) = with(CPUID, &|r| (r.registers[0], r.registers[1], r.cpuid) = (rax, rcx, words));
        let r = oracle.registers();
        format!("{:x} {:x} {:x} {:x}", r[0], r[3], r[1], r[2])
    };
    let ones = [u32::MAX; 4];
    for (name, rax, rcx, words, expected) in [
        ("leaf 0x1_00000001", 0x1_0000_0001, 9, ones, "ffffff7f ffffffff ffffffdf ffffffff"),
        ("leaf 7, RCX 0", 7, 0, ones, "ffffffff ffffffff fffeffdf ffffffff"),
        ("leaf 7, RCX 2^32", 7, 1 << 32, ones, "ffffffff ffffffff ffffffff ffffffff"),
        ("leaf 0xD", 0xD, 0, [1, 2, 3, 4], "1 2 3 4"),
        ("leaf 0x16, EAX 0", 0x16, 0, [0, 2, 3, 4], "bb8 2 3 4"),
        ("leaf 0x16, EAX 5", 0x16, 0, [5, 2, 3, 4], "5 2 3 4"),
        ("leaf 0x40000001", 0x4000_0001, 0, ones, "0 0 0 0"),
        ("leaf 0x40000002", 0x4000_0002, 0, [1, 2, 3, 4], "1 2 3 4"),
    ] {
        sheet.line(&format!("CPUID {name}: EAX EBX ECX EDX"), expected, &cpuid(rax, rcx, words));
    }

    // Failed entries.
    for reason in [33, 34, 41] {
        let mut oracle = ready();
        oracle.queue_event(14, Some(2));
        oracle.enter(0).expect("entry");
        let before = oracle.state();
        let text = show(
            Call::Exit(reason),
            oracle.exit(&Report { reason: reason | 1 << 31, qualification: 5, ..Report::default() }),
        );
        sheet.line(&format!("failed entry, reason {reason}"), "FailEntry", &text);
        let changed: Vec<_> = before.differences(&oracle.state()).iter().map(|d| d[..6].to_string()).collect();
        sheet.line("    changed fields", "[\"0x4402\", \"0x6400\"]", &format!("{changed:?}"));
    }

    // Readings.
    let mut oracle = ready();
    for (efer, rights, cr0, expected) in
        [(0, 0, 0, 0), (0, 0x2000, 1, 1), (0x400, 0, 0, 2), (0x400, 0x2000, 0, 3), (!0x400, 0x2000, !1, 0)]
    {
        oracle.store_field(0x4816, rights);
        oracle.store_field(0x6800, cr0);
        sheet.hex(
            &format!("CPU mode, host EFER {efer:#x}, CS rights {rights:#x}, CR0 {cr0:#x}"),
            expected,
            oracle.cpu_mode(efer) as u64,
        );
    }
    oracle.store_field(0x6808, 1);
    sheet.line("gla2gva at the end", "refused 17", &show(Call::Gla2gva, oracle.gla2gva(0, u64::MAX)));
    oracle.store_field(0x4816, 0x2000);
    sheet.line(
        "gla2gva at the end, 64-bit mode",
        "ffffffffffffffff",
        &show(Call::Gla2gva, oracle.gla2gva(0x400, u64::MAX)),
    );
}
