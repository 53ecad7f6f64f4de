//! The intended differences of docs/DIFFERENCES.md, shown on the original: for each the smallest input, what
//! document 01 or 02 says, and what the original does.
//!
//!   differences [NAME]
//!
//! `vendor text` and `wrapping` depend on how the original was built (see Cargo.toml's profiles).

use oracle::samples::{exit, ready, report, show, usual_setup};
use oracle::*;

struct Difference {
    name: &'static str,
    input: &'static str,
    /// What document 01 or 02 says, which the port does.
    document: &'static str,
    original: fn() -> String,
}

/// How the original fails, in its own words.
fn failure<T: std::fmt::Debug>(outcome: Outcome<T>) -> String {
    match outcome {
        Ok(value) => format!("accepts: {value:x?}"),
        Err(Failure::Panicked(text)) => format!("panics: {}", text.lines().next().unwrap_or("")),
        Err(Failure::Error { kind, message }) => format!("error {kind}: {message}"),
        Err(other) => format!("{other:?}"),
    }
}

/// The exit that a change to the usual report gives.
fn exit_with(reason: u32, change: impl FnOnce(&mut Report)) -> (String, Oracle) {
    let mut oracle = ready();
    let mut report = report(&mut oracle, reason);
    change(&mut report);
    let text = exit(&mut oracle, &report);
    (text, oracle)
}

/// How the exit that a change to the usual report gives fails, up to the dump of the vCPU.
fn failing_exit(reason: u32, change: impl FnOnce(&mut Report)) -> String {
    let mut oracle = ready();
    oracle.enter(0).expect("entry");
    let mut report = report(&mut oracle, reason);
    change(&mut report);
    let text = failure(oracle.exit(&report));
    let end = [", vcpu", ": VmxVcpu {"].iter().filter_map(|mark| text.find(mark)).min();
    text[..end.unwrap_or(text.len())].to_string()
}

/// What the original's `run` itself answers to a change of the usual report.
fn run_of(oracle: &mut Oracle, reason: u32, change: impl FnOnce(&mut Report)) -> access::AxVCpuExitReason {
    let mut report = report(oracle, reason);
    change(&mut report);
    oracle.bare(|vcpu| access::run(vcpu, Box::new(move |vcpu, _| report.load(vcpu, true)))).expect("an answer")
}

fn fields(oracle: &mut Oracle, encodings: &[u32]) -> String {
    let one = |&encoding: &u32| format!("{encoding:#06x} {:#x}", oracle.read_field(encoding).unwrap());
    encodings.iter().map(one).collect::<Vec<_>>().join(", ")
}

/// The word and the code's field that an entry leaves, which writes this event.
fn coded_event(oracle: &mut Oracle, vector: u8, code: u32) -> String {
    oracle.queue_event(vector, Some(code));
    oracle.enter(0).expect("entry");
    fields(oracle, &[0x4016, 0x4018])
}

/// Those that document 02 decides; document 01 decides the others.
const BY_DOCUMENT_02: [&str; 7] =
    ["XSETBV", "XCR0 values", "first XCR0", "no TRUE words", "vector 1", "vector 21", "codes in real mode"];

const DIFFERENCES: [Difference; 49] = [
    Difference {
        name: "bitmap length",
        input: "port edit, port 0x2000, count 1",
        document: "bit 0 of byte 1,024 of A is set",
        original: || failure(Oracle::new().set_io_intercept_of_range(0x2000, 1, true)),
    },
    Difference {
        name: "bitmap length, part of a range",
        input: "port edit, port 0x1FFF, count 2",
        document: "both ports are set",
        original: || {
            let mut oracle = Oracle::new();
            let text = failure(oracle.set_io_intercept_of_range(0x1FFF, 2, true));
            format!("{text}; byte 1,023 of A is then {:#x}", oracle.frames()[0][1023])
        },
    },
    Difference {
        name: "bit 31 with another reason, HLT",
        input: "exit report, reason 0x8000000C",
        document: "refused 14",
        original: || exit_with(12 | 1 << 31, |_| ()).0,
    },
    Difference {
        name: "bit 31 with another reason, interrupt window",
        input: "exit report, reason 0x80000007, after a held entry",
        document: "refused 14, primary bit 2 stays",
        original: || {
            let mut oracle = ready();
            oracle.queue_event(32, None);
            oracle.enter(0).expect("entry");
            let before = oracle.read_field(0x4002).unwrap();
            let report = report(&mut oracle, 7 | 1 << 31);
            let text = show(Call::Exit(report.reason), oracle.exit(&report));
            format!("{text}; the primary word goes from {before:#x} to {:#x}", oracle.read_field(0x4002).unwrap())
        },
    },
    Difference {
        name: "mask test",
        input: "exit report, reason 12, CR0 bit 5 (under the mask) flipped",
        document: "refused 15",
        original: || {
            let (text, mut oracle) = exit_with(12, |r| r.cr0 ^= 0x20);
            format!("{text}; {}", fields(&mut oracle, &[0x6800]))
        },
    },
    Difference {
        name: "order of 6 at setup",
        input: "setup, pin pair 0 (refused by 8), entry pair 1 (refused by 6)",
        document: "refused 6",
        original: || {
            let mut args = usual_setup();
            (args.capabilities.pairs[0], args.capabilities.pairs[4]) = (0, 1);
            failure(Oracle::new().setup(&args))
        },
    },
    Difference {
        name: "fixed bits at setup",
        input: "setup, CR0 fixed-0 bit 40, which fixed-1 lacks",
        document: "refused 6",
        original: || {
            let mut args = usual_setup();
            args.capabilities.cr0_fixed0 = 1 << 40;
            let mut oracle = Oracle::new();
            let text = failure(oracle.setup(&args));
            format!("{text}; {}", fields(&mut oracle, &[0x6800, 0x6000]))
        },
    },
    Difference {
        name: "type 1 at reason 1",
        input: "exit report, reason 1, interruption information 0x80000120",
        document: "refused 16",
        original: || exit_with(1, |r| r.interruption_info = 0x8000_0120).0,
    },
    Difference {
        name: "I/O size 8",
        input: "exit report, reason 30, qualification 0x6000F (IN, port 6, size field 7)",
        document: "Halt",
        original: || exit_with(30, |r| r.qualification = 0x6_000F).0,
    },
    Difference {
        name: "vectors above 255",
        input: "inject_interrupt, vector 256",
        document: "refused 12",
        original: || {
            let mut oracle = ready();
            let text = failure(oracle.inject_interrupt(256));
            format!("{text}; waiting {:?}", oracle.events())
        },
    },
    Difference {
        name: "writes before refusal 8",
        input: "exit report, move of 0x80000001 to CR0, EFER 0x100, entry bit 9 not in allowed-1",
        document: "refused 8, nothing changes",
        original: || {
            let mut args = usual_setup();
            args.capabilities.pairs[4] = 0xFFFF_FDFF << 32;
            args.capabilities.plain[3] = 0;
            let mut oracle = Oracle::new();
            oracle.setup(&args).expect("setup");
            let mut report = report(&mut oracle, 28);
            (report.efer, report.registers[0]) = (0x100, 0x8000_0001);
            oracle.enter(0).expect("entry");
            let before = fields(&mut oracle, &[0x681E, 0x6800, 0x6004, 0x2806]);
            let text = failure(oracle.exit(&report));
            let after = fields(&mut oracle, &[0x681E, 0x6800, 0x6004, 0x2806]);
            format!("{}; before {before}; after {after}", &text[..text.find(", vcpu").unwrap_or(text.len())])
        },
    },
    Difference {
        name: "writes before refusal 21",
        input: "exit report, reason 44, RIP 0x1000, length 2",
        document: "refused 21, nothing changes",
        original: || {
            let mut oracle = ready();
            oracle.enter(0).expect("entry");
            let report = report(&mut oracle, 44);
            let text = failure(oracle.exit(&report));
            format!("{text}; after {}", fields(&mut oracle, &[0x681E]))
        },
    },
    Difference {
        name: "writes before refusal 17",
        input: "exit report, reason 10, RAX 0x40000000, RIP 2^64 - 1",
        document: "refused 17, nothing changes",
        original: || {
            let mut oracle = ready();
            oracle.enter(0).expect("entry");
            let mut report = report(&mut oracle, 10);
            (report.registers[0], report.rip) = (0x4000_0000, u64::MAX);
            let text = failure(oracle.exit(&report));
            let [rax, _, _, rbx, ..] = oracle.registers();
            format!("{text}; RAX is then {rax:#x}, RBX {rbx:#x}")
        },
    },
    Difference {
        name: "writes before refusal 10",
        input: "port edit, port 0x9FFF, count 0x6002 (the last is 65,536)",
        document: "refused 10, nothing changes",
        original: || {
            let mut oracle = Oracle::new();
            let text = failure(oracle.set_io_intercept_of_range(0x9FFF, 0x6002, true));
            format!("{text}; byte 1,023 of B is then {:#x}", oracle.frames()[1][1023])
        },
    },
    Difference {
        name: "writes before a refusal at setup",
        input: "setup, entry pair 0 (refused by 8)",
        document: "refused 8, nothing changes",
        original: || {
            let mut args = usual_setup();
            args.capabilities.pairs[4] = 0;
            let mut oracle = Oracle::new();
            let before = oracle.state();
            let text = failure(oracle.setup(&args));
            let after = oracle.state();
            let fields = before.fields.iter().zip(&after.fields).filter(|(b, a)| a != b).count();
            let traps: u32 = after.frames[2].iter().map(|byte| byte.count_ones()).sum();
            format!("{text}; {fields} fields are no longer 0, {traps} MSR traps are set")
        },
    },
    Difference {
        name: "room of the queue",
        input: "queue_event 65 times",
        document: "the 65th is refused 13",
        original: || {
            let mut oracle = ready();
            (0..65).for_each(|_| oracle.queue_event(3, None));
            format!("{} events wait", oracle.events().len())
        },
    },
    Difference {
        name: "bit 31 of the entry interruption field",
        input: "an event is injected, then exit report, reason 12",
        document: "bit 31 is cleared, as the processor does",
        original: || {
            let mut oracle = ready();
            oracle.exit_clears_entry_valid = false;
            oracle.queue_event(3, None);
            let report = report(&mut oracle, 12);
            let text = exit(&mut oracle, &report);
            format!("{text}; {} (the Rust's own code writes nothing there)", fields(&mut oracle, &[0x4016]))
        },
    },
    Difference {
        name: "VmcsControl16",
        input: "read of encodings 0, 2 and 4",
        document: "refused 3",
        original: || {
            let mut oracle = Oracle::new();
            oracle.write_field(0, 5).expect("VPID");
            format!("reads {:?}", [0, 2, 4].map(|encoding| oracle.read_field(encoding)))
        },
    },
    Difference {
        name: "register slot 4",
        input: "exit report, reason 12, register word 4 is 7 (slot 4 was 0)",
        document: "all sixteen words are stored; index 4 can't be read (23)",
        original: || {
            let (text, oracle) = exit_with(12, |r| r.registers[4] = 7);
            format!("{text}; slot 4 is {}", oracle.registers()[4])
        },
    },
    Difference {
        name: "register index",
        input: "register write, index 256, value 7",
        document: "refused 23",
        original: || {
            let mut oracle = ready();
            let text = failure(oracle.set_gpr(256, 7));
            format!("{text}; RAX is {}", oracle.registers()[0])
        },
    },
    Difference {
        name: "phases",
        input: "setup twice; an entry before setup",
        document: "refused 1",
        original: || {
            let mut oracle = ready();
            let again = failure(oracle.setup(&usual_setup()));
            format!("setup again {again}; entry {}", failure(Oracle::new().enter(0)))
        },
    },
    Difference {
        name: "control word, 6 to 9",
        input: "control word: allowed-0 1, allowed-1 0; set 1 and clear 1; set 1, allowed-1 0; clear 1, allowed-0 1",
        document: "refused 6; refused 7; refused 8; refused 9",
        original: || {
            let words = [(1, 0, 0, 0), (0, 1, 1, 1), (0, 0, 1, 0), (1, 1, 0, 1)];
            let one =
                |(allowed0, allowed1, set, clear)| failure(leaves::set_control(allowed0, allowed1, 0, set, clear));
            words.map(one).join("; ")
        },
    },
    Difference {
        name: "6 and 9 at setup",
        input: "setup, pin pair 1 (allowed-0 1, allowed-1 0); primary pair with bit 15 in allowed-0",
        document: "refused 6; refused 9",
        original: || {
            let with = |word: usize, pair: u64| {
                let mut args = usual_setup();
                args.capabilities.pairs[word] = pair;
                failure(Oracle::new().setup(&args))
            };
            format!("{}; {}", with(0, 1), with(1, 0xFFFF_FFFF << 32 | 0x8000))
        },
    },
    Difference {
        name: "MSR without a bit",
        input: "MSR edit, reads of 0x2000; both of 0xC0002000",
        document: "refused 11; refused 11",
        original: || {
            let read = failure(Oracle::new().set_read_intercept(0x2000, true));
            format!("{read}; {}", failure(Oracle::new().set_msr_intercept_of_range(0xC000_2000, true)))
        },
    },
    Difference {
        name: "vector 0",
        input: "inject_interrupt, vector 0",
        document: "refused 12",
        original: || failure(ready().inject_interrupt(0)),
    },
    Difference {
        name: "reasons without a name",
        input: "exit report, reasons 35, 38 and 42",
        document: "refused 14; refused 14; refused 14",
        original: || [35, 38, 42].map(|reason| failing_exit(reason, |_| ())).join("; "),
    },
    Difference {
        name: "valid clear at reason 1",
        input: "exit report, reason 1, interruption information 0x20",
        document: "refused 16",
        original: || failing_exit(1, |r| r.interruption_info = 0x20),
    },
    Difference {
        name: "other accesses to control registers",
        input: "exit report, reason 28, qualification 3 (move to CR3), 0x10 (move from CR0), 0x20 (CLTS), 0x30 (LMSW)",
        document: "refused 18, each",
        original: || [3, 0x10, 0x20, 0x30].map(|q| failing_exit(28, |r| r.qualification = q)).join("; "),
    },
    Difference {
        name: "XSETBV",
        input: "exit report, reason 55, supported bits 7, ECX 1, EDX:EAX 7; ECX 0, EDX:EAX 6",
        document: "refused 20; refused 19",
        original: || {
            let with = |rcx, rax| failing_exit(55, |r| (r.registers[1], r.registers[0]) = (rcx, rax));
            format!("{}; {}", with(1, 7), with(0, 6))
        },
    },
    Difference {
        name: "XCR0 values",
        input: "exit report, reason 55, supported bits 7, ECX 0, EDX:EAX 7",
        document: "Nothing; RIP 0x1003, XCR0 7",
        original: || failing_exit(55, |r| r.registers[0] = 7),
    },
    Difference {
        name: "first XCR0",
        input: "setup, on a host with XSAVE whose XCR0 is 7",
        document: "XCR0 1",
        original: || {
            let mut oracle = Oracle::on(Machine { has_xsave: true, xcr0: 7, ..Machine::new() });
            let text = failure(oracle.setup(&usual_setup()));
            format!("{text}; XCR0 {:#x}", oracle.guest_xcr0())
        },
    },
    Difference {
        name: "no TRUE words",
        input: "setup, bit 55 of IA32_VMX_BASIC (MSR 0x480) clear, bits 15 and 16 in allowed-0 of 0x482 and not of 0x48E",
        document: "refused 9",
        original: || {
            let mut oracle = Oracle::new();
            let mut args = usual_setup();
            args.vmx_basic &= !VMX_FLEX_CONTROLS;
            let text = failure(oracle.setup(&args));
            format!("{text}; {}", fields(&mut oracle, &[0x4002]))
        },
    },
    Difference {
        name: "vector 1",
        input: "exit report, reason 12, instruction length 2; vector 1 is queued, then an entry",
        document: "0x4016 0x80000301, 0x401A stays 0",
        original: || {
            let (text, mut oracle) = exit_with(12, |_| ());
            oracle.queue_event(1, None);
            oracle.enter(0).expect("entry");
            format!("{text}; {}", fields(&mut oracle, &[0x4016, 0x401A]))
        },
    },
    Difference {
        name: "vector 21",
        input: "setup; a write of 0x31, which has PE, to CR0; vector 21 is queued with code 7, then an entry",
        document: "0x4016 0x80000B15, 0x4018 7",
        original: || {
            let mut oracle = ready();
            oracle.write_field(0x6800, 0x31).expect("CR0");
            coded_event(&mut oracle, 21, 7)
        },
    },
    Difference {
        name: "codes in real mode",
        input: "setup, which leaves CR0.PE clear; vector 14 is queued with code 2, then an entry",
        document: "0x4016 0x8000030E, 0x4018 stays 0",
        original: || coded_event(&mut ready(), 14, 2),
    },
    Difference {
        name: "other APIC accesses",
        input: "exit report, reason 44, qualification 0x2000 (an instruction fetch); 0x5000 (no access type)",
        document: "refused 21; refused 21",
        original: || [0x2000, 0x5000].map(|q| failing_exit(44, |r| r.qualification = q)).join("; "),
    },
    Difference {
        name: "register without a name",
        input: "register write, index 4; register read, index 16",
        document: "refused 23; refused 23",
        original: || format!("{}; {}", failure(ready().set_register(4, 7)), failure(ready().get_register(16))),
    },
    Difference {
        name: "linear address past the end",
        input: "gla2gva, CS base 1, host EFER 0, address 2^64 - 1",
        document: "refused 17",
        original: || {
            let mut oracle = ready();
            oracle.write_field(0x6808, 1).expect("CS base");
            failure(oracle.gla2gva(0, u64::MAX))
        },
    },
    Difference {
        name: "failed entry",
        input: "exit report, reason 0x80000021; then queue_event, then an entry",
        document: "FailEntry; the session is ended: refused 1; refused 1",
        original: || {
            let (text, mut oracle) = exit_with(33 | 1 << 31, |_| ());
            oracle.queue_event(3, None);
            let waiting = oracle.events().len();
            format!("{text}; {waiting} waits; entry {}", failure(oracle.enter(0)))
        },
    },
    Difference {
        name: "SysRegRead's register",
        input: "exit report, reason 31, RCX 0x1B",
        document: "SysRegRead of 0x1B, and no register",
        original: || format!("{:x?}", run_of(&mut ready(), 31, |r| r.registers[1] = 0x1B)),
    },
    Difference {
        name: "APIC registers",
        input: "exit report, reason 32, RCX 0x808, EDX:EAX 5",
        document: "ApicWrite of 0x808 and 5: the device is the host's",
        original: || {
            let mut oracle = ready();
            let answer = run_of(&mut oracle, 32, |r| (r.registers[1], r.registers[0]) = (0x808, 5));
            format!("{answer:x?}; its device got {:x?}", oracle.machine().apic_call)
        },
    },
    Difference {
        name: "capability words after setup",
        input: "setup; CR4 fixed-1 (MSR 0x489) is 0x2000 by then; exit report, move of 0x20 to CR4",
        document: "by the words kept from setup: CR4 0x2020",
        original: || {
            let mut oracle = ready();
            let mut capabilities = usual_setup().capabilities;
            capabilities.cr4_fixed1 = 0x2000;
            oracle.store_capabilities(&capabilities);
            let mut report = report(&mut oracle, 28);
            (report.qualification, report.registers[0]) = (4, 0x20);
            let text = exit(&mut oracle, &report);
            format!("{text}; {}", fields(&mut oracle, &[0x6804]))
        },
    },
    Difference {
        name: "unbind",
        input: "an entry with host stack 0x7000, exit report, reason 12; unbind; an entry with host stack 0x9000",
        document: "there is no unbind: the second entry resumes, and host RSP stays 0x7000",
        original: || {
            let (text, mut oracle) = exit_with(12, |_| ());
            oracle.bare(access::unbind).expect("unbind");
            let entry = failure(oracle.enter(0x9000));
            format!("{text}; entry {entry}; {}", fields(&mut oracle, &[0x6C14]))
        },
    },
    Difference {
        name: "reasons above 64",
        input: "exit report, reason 65; reason 70",
        document: "refused 14; reasons above 64 are outside the comparison",
        original: || {
            let mut oracle = ready();
            oracle.enter(0).expect("entry");
            let report = report(&mut oracle, 70);
            format!("{}; {}", exit_with(65, |_| ()).0, failure(oracle.exit(&report)))
        },
    },
    Difference {
        name: "entry pair that contradicts itself",
        input: "exit report, move of 0x80000001 to CR0, EFER 0x100, kept entry pair 1 and 0x200, which no setup leaves",
        document: "Nothing: only allowed-1 of bit 9 is judged",
        original: || {
            let mut oracle = ready();
            let mut capabilities = usual_setup().capabilities;
            capabilities.pairs[4] = 0x200 << 32 | 1;
            oracle.store_capabilities(&capabilities);
            let mut report = report(&mut oracle, 28);
            (report.efer, report.registers[0]) = (0x100, 0x8000_0001);
            oracle.enter(0).expect("entry");
            failure(oracle.exit(&report))
        },
    },
    Difference {
        name: "host CR3",
        input: "setup, host CR3 0xFFF0000012345FFF",
        document: "stored as given: the host's words are the fields' values",
        original: || {
            let mut args = usual_setup();
            args.host.cr3 = 0xFFF0_0000_1234_5FFF;
            let mut oracle = Oracle::new();
            let text = failure(oracle.setup(&args));
            format!("{text}; {}", fields(&mut oracle, &[0x6C02]))
        },
    },
    Difference {
        name: "TR selector",
        input: "setup, TR selector 0xFFF8 (index 8191)",
        document: "accepted: the TR base is a word of its own",
        original: || {
            let mut args = usual_setup();
            args.host.tr = 0xFFF8;
            failure(Oracle::new().setup(&args))
        },
    },
    Difference {
        name: "vendor text",
        input: "exit report, reason 10, RAX 0x40000000",
        document: "EBX 0x524D5652, ECX 0x56524D56, EDX 0x4D56524D",
        original: || {
            let (text, oracle) = exit_with(10, |r| r.registers[0] = 0x4000_0000);
            let r = oracle.registers();
            format!("{text}; EBX {:#x}, ECX {:#x}, EDX {:#x}", r[3], r[1], r[2])
        },
    },
    Difference {
        name: "wrapping",
        input: "exit report, reason 10, RIP 2^64 - 1; port edit, port 2^32 - 1, count 1",
        document: "refused 17; refused 10",
        original: || {
            let mut oracle = ready();
            oracle.enter(0).expect("entry");
            let mut report = report(&mut oracle, 10);
            report.rip = u64::MAX;
            let text = failure(oracle.exit(&report));
            let rip = fields(&mut oracle, &[0x681E]);
            format!("{text}, {rip}; {}", failure(Oracle::new().set_io_intercept_of_range(u32::MAX, 1, true)))
        },
    },
];

fn main() {
    let only = std::env::args().nth(1);
    for difference in &DIFFERENCES {
        if only.as_deref().is_none_or(|only| only == difference.name) {
            println!("{}", difference.name);
            println!("    input: {}", difference.input);
            let document = if BY_DOCUMENT_02.contains(&difference.name) { "02" } else { "01" };
            println!("    document {document}: {}", difference.document);
            println!("    rust: {}", (difference.original)());
        }
    }
}
