//! The port's side of docs/DIFFERENCES.md: on the smallest input of each difference the archive must do what document 01 or 02 says. The names are
//! those of oracle/differences.txt, which has the original's side; each must be here, and in a row of the document.

use crate::archive;
use crate::buffer::{Buffer, Results};
use crate::calls::{self, Call, Reply};
use crate::report;
use crate::tally::{Tally, Totals};
use oracle::generate::Random;
use oracle::record::{self, LENGTH};
use oracle::samples::usual_setup;
use oracle::{FRAME_BYTES, Report, Setup, VMX_FLEX_CONTROLS};

const CR0: u32 = 0x6800;
const CR4: u32 = 0x6804;
const PRIMARY: u32 = 0x4002;
const ENTRY_INTERRUPTION: u32 = 0x4016;
const ENTRY_ERROR_CODE: u32 = 0x4018;
const ENTRY_INSTRUCTION_LENGTH: u32 = 0x401A;
const HOST_CR3: u32 = 0x6C02;
const HOST_TR: u32 = 0x0C0C;
const HOST_RSP: u32 = 0x6C14;
const HOST_TR_BASE: u32 = 0x6C0A;
const RIP: u32 = 0x681E;
const FAILED: u32 = 1 << 31;
/// Protection enable, in CR0.
const PE: u64 = 1;

/// A record and its frames, moved by the archive's calls alone.
struct Port {
    record: Buffer,
    frames: [Buffer; 3],
}

impl Port {
    fn new() -> Self {
        let mut port = Port { record: Buffer::new(LENGTH), frames: [(); 3].map(|()| Buffer::new(FRAME_BYTES)) };
        let vcpu_new = archive::vcpu_new().expect("the function");
        let n = FRAME_BYTES;
        let [a, b, m] = port.frames.each_mut().map(|frame| frame.pointer());
        let number = unsafe { vcpu_new(port.record.pointer(), LENGTH, a, n, b, n, m, n) };
        assert_eq!(number, 0);
        port
    }

    fn set_up(setup: &Setup) -> Self {
        let mut port = Self::new();
        assert_eq!(port.setup(setup), 0);
        port
    }

    /// After the usual setup.
    fn ready() -> Self {
        Self::set_up(&usual_setup())
    }

    fn running() -> Self {
        let mut port = Self::ready();
        port.enter();
        port
    }

    fn setup(&mut self, setup: &Setup) -> u32 {
        let vcpu_setup = archive::vcpu_setup().expect("the function");
        let block = setup.block();
        let n = FRAME_BYTES;
        let [a, b, m] = self.frames.each_mut().map(|frame| frame.pointer());
        let r = self.record.pointer();
        unsafe { vcpu_setup(r, LENGTH, block.as_ptr(), block.len(), a, n, b, n, m, n) }
    }

    fn call(&mut self, call: Call) -> Reply {
        calls::port(call, self.record.pointer(), LENGTH)
    }

    fn queue(&mut self, vector: u8) -> u32 {
        self.call(Call::QueueEvent { vector, coded: 0, code: 0 }).number
    }

    fn enter(&mut self) {
        assert_eq!(self.call(Call::Entry { host_stack: 0x7000 }).number, 0);
    }

    /// An event with a code, and the entry that writes it: its word and the code's field.
    fn coded_event(&mut self, vector: u8, code: u32) -> String {
        assert_eq!(self.call(Call::QueueEvent { vector, coded: 1, code }).number, 0);
        self.enter();
        format!("{:#x}, code {:#x}", self.field(ENTRY_INTERRUPTION), self.field(ENTRY_ERROR_CODE))
    }

    fn field(&mut self, encoding: u32) -> u64 {
        let reply = self.call(Call::ReadField { encoding: encoding as u64 });
        assert_eq!(reply.number, 0);
        reply.results.words()[0]
    }

    fn xcr0(&mut self) -> u64 {
        let reply = self.call(Call::GetXcr0);
        assert_eq!(reply.number, 0);
        reply.results.words()[0]
    }

    /// The register as the record has it, the unused place too.
    fn register(&self, index: usize) -> u64 {
        record::number(self.record.content(), record::REGISTERS + 8 * index, 8)
    }

    fn edit_ports(&mut self, port: u32, count: u32) -> u32 {
        let edit = archive::vcpu_set_io_intercept_of_range().expect("the function");
        let [a, b, _] = self.frames.each_mut().map(|frame| frame.pointer());
        unsafe { edit(a, FRAME_BYTES, b, FRAME_BYTES, port, count, 1) }
    }

    /// A report that leaves the control registers as the session has them.
    fn report(&mut self, reason: u32, change: impl FnOnce(&mut Report)) -> Reply {
        let (cr0, cr4) = (self.field(CR0), self.field(CR4));
        let usual = Report { reason, rip: 0x1000, rflags: 2, cr0, cr4, instruction_length: 2, ..Report::default() };
        let mut report = usual;
        change(&mut report);
        report::port(&mut self.record, LENGTH, &report.block())
    }

    /// The number of a call, and whether it changed a byte.
    fn number(&mut self, call: impl FnOnce(&mut Port) -> u32) -> String {
        let bytes =
            |port: &Port| [&port.record].into_iter().chain(&port.frames).map(|b| b.content().to_vec()).collect();
        let before: Vec<Vec<u8>> = bytes(self);
        let number = call(self);
        let after: Vec<Vec<u8>> = bytes(self);
        assert!(self.record.margins_intact() && self.frames.iter().all(Buffer::margins_intact));
        let changed = if before == after { "nothing changes" } else { "bytes change" };
        if number == 0 { format!("accepted, {changed}") } else { format!("refused {number}, {changed}") }
    }

    /// The same for a report, which must leave the answer alone where it is refused.
    fn refused(&mut self, reason: u32, change: impl FnOnce(&mut Report)) -> String {
        self.number(|port| {
            let reply = port.report(reason, change);
            assert!(reply.number == 0 || reply.results == Results::new());
            reply.number
        })
    }
}

/// The first three words of an accepted answer.
fn answer(reply: Reply) -> String {
    match reply.number {
        0 => format!("answer {:x?}", &reply.results.words()[..3]),
        number => format!("refused {number}"),
    }
}

/// The usual setup with a change.
fn changed(change: impl FnOnce(&mut Setup)) -> Setup {
    let mut setup = usual_setup();
    change(&mut setup);
    setup
}

struct Kept {
    name: &'static str,
    document: &'static str,
    port: fn() -> String,
}

const KEPT: [Kept; 49] = [
    Kept {
        name: "bitmap length",
        document: "accepted, bytes change; byte 1,024 of A is 0x1",
        port: || {
            let mut port = Port::new();
            let text = port.number(|port| port.edit_ports(0x2000, 1));
            format!("{text}; byte 1,024 of A is {:#x}", port.frames[0].content()[1024])
        },
    },
    Kept {
        name: "bitmap length, part of a range",
        document: "accepted, bytes change; bytes 1,023 and 1,024 of A are 0x80 and 0x1",
        port: || {
            let mut port = Port::new();
            let text = port.number(|port| port.edit_ports(0x1FFF, 2));
            let a = port.frames[0].content();
            format!("{text}; bytes 1,023 and 1,024 of A are {:#x} and {:#x}", a[1023], a[1024])
        },
    },
    Kept {
        name: "bit 31 with another reason, HLT",
        document: "refused 14, nothing changes",
        port: || Port::running().refused(12 | FAILED, |_| ()),
    },
    Kept {
        name: "bit 31 with another reason, interrupt window",
        document: "refused 14, nothing changes; the primary word is 0x96006176",
        port: || {
            let mut port = Port::ready();
            port.queue(32);
            port.enter();
            let text = port.refused(7 | FAILED, |_| ());
            format!("{text}; the primary word is {:#x}", port.field(PRIMARY))
        },
    },
    Kept {
        name: "mask test",
        document: "refused 15, nothing changes",
        port: || Port::running().refused(12, |r| r.cr0 ^= 0x20),
    },
    Kept {
        name: "order of 6 at setup",
        document: "refused 6, nothing changes",
        port: || {
            let setup = changed(|s| (s.capabilities.pairs[0], s.capabilities.pairs[4]) = (0, 1));
            Port::new().number(|port| port.setup(&setup))
        },
    },
    Kept {
        name: "fixed bits at setup",
        document: "refused 6, nothing changes",
        port: || {
            let setup = changed(|s| s.capabilities.cr0_fixed0 = 1 << 40);
            Port::new().number(|port| port.setup(&setup))
        },
    },
    Kept {
        name: "type 1 at reason 1",
        document: "refused 16, nothing changes",
        port: || Port::running().refused(1, |r| r.interruption_info = 0x8000_0120),
    },
    Kept {
        name: "I/O size 8",
        document: "answer [a, 0, 0]",
        port: || answer(Port::running().report(30, |r| r.qualification = 0x6_000F)),
    },
    Kept {
        name: "vectors above 255",
        document: "refused 12, nothing changes",
        port: || Port::ready().number(|port| port.call(Call::InjectInterrupt { vector: 256 }).number),
    },
    Kept {
        name: "writes before refusal 8",
        document: "refused 8, nothing changes",
        port: || {
            let setup = changed(|s| (s.capabilities.pairs[4], s.capabilities.plain[3]) = (0xFFFF_FDFF << 32, 0));
            let mut port = Port::set_up(&setup);
            port.enter();
            port.refused(28, |r| (r.efer, r.registers[0]) = (0x100, 0x8000_0001))
        },
    },
    Kept {
        name: "writes before refusal 21",
        document: "refused 21, nothing changes",
        port: || Port::running().refused(44, |_| ()),
    },
    Kept {
        name: "writes before refusal 17",
        document: "refused 17, nothing changes",
        port: || Port::running().refused(10, |r| (r.registers[0], r.rip) = (0x4000_0000, u64::MAX)),
    },
    Kept {
        name: "writes before refusal 10",
        document: "refused 10, nothing changes",
        port: || Port::new().number(|port| port.edit_ports(0x9FFF, 0x6002)),
    },
    Kept {
        name: "writes before a refusal at setup",
        document: "refused 8, nothing changes",
        port: || {
            let setup = changed(|s| s.capabilities.pairs[4] = 0);
            Port::new().number(|port| port.setup(&setup))
        },
    },
    Kept {
        name: "room of the queue",
        document: "64 accepted; refused 13, nothing changes",
        port: || {
            let mut port = Port::ready();
            let accepted = (0..64).filter(|_| port.queue(3) == 0).count();
            format!("{accepted} accepted; {}", port.number(|port| port.queue(3)))
        },
    },
    Kept {
        name: "bit 31 of the entry interruption field",
        document: "0x80000603; answer [a, 0, 0]; 0x603",
        port: || {
            let mut port = Port::ready();
            port.queue(3);
            port.enter();
            let before = port.field(ENTRY_INTERRUPTION);
            let text = answer(port.report(12, |_| ()));
            format!("{before:#x}; {text}; {:#x}", port.field(ENTRY_INTERRUPTION))
        },
    },
    Kept {
        name: "VmcsControl16",
        document: "refused [3, 3, 3]",
        port: || {
            format!("refused {:?}", [0, 2, 4].map(|encoding| Port::ready().call(Call::ReadField { encoding }).number))
        },
    },
    Kept {
        name: "register slot 4",
        document: "answer [a, 0, 0]; slot 4 is 7, a read refused 23",
        port: || {
            let mut port = Port::running();
            let text = answer(port.report(12, |r| r.registers[4] = 7));
            let read = port.call(Call::GetRegister { index: 4 }).number;
            format!("{text}; slot 4 is {}, a read refused {read}", port.register(4))
        },
    },
    Kept {
        name: "register index",
        document: "refused 23, nothing changes",
        port: || Port::ready().number(|port| port.call(Call::SetRegister { index: 256, value: 7 }).number),
    },
    Kept {
        name: "phases",
        document: "setup again refused 1, nothing changes; entry refused 1, nothing changes",
        port: || {
            let again = Port::ready().number(|port| port.setup(&usual_setup()));
            let entry = Port::new().number(|port| port.call(Call::Entry { host_stack: 0 }).number);
            format!("setup again {again}; entry {entry}")
        },
    },
    Kept {
        name: "control word, 6 to 9",
        document: "refused [6, 7, 8, 9], no word",
        port: || {
            let set_control = archive::vcpu_set_control().expect("the function");
            let mut word = 0xA5A5_A5A5;
            let words = [(1, 0, 0, 0), (0, 1, 1, 1), (0, 0, 1, 0), (1, 1, 0, 1)];
            let numbers = words.map(|(allowed0, allowed1, set, clear)| unsafe {
                set_control(allowed0, allowed1, 0, set, clear, &mut word)
            });
            let written = if word == 0xA5A5_A5A5 { "no word" } else { "a word" };
            format!("refused {numbers:?}, {written}")
        },
    },
    Kept {
        name: "6 and 9 at setup",
        document: "refused 6, nothing changes; refused 9, nothing changes",
        port: || {
            let with = |word: usize, pair: u64| {
                let setup = changed(|s| s.capabilities.pairs[word] = pair);
                Port::new().number(|port| port.setup(&setup))
            };
            format!("{}; {}", with(0, 1), with(1, 0xFFFF_FFFF << 32 | 0x8000))
        },
    },
    Kept {
        name: "MSR without a bit",
        document: "refused 11, nothing changes; refused 11, nothing changes",
        port: || {
            let read = archive::vcpu_set_read_intercept().expect("the function");
            let both = archive::vcpu_set_msr_intercept_of_range().expect("the function");
            let edit = |port: &mut Port, f: unsafe extern "C" fn(*mut u8, usize, u32, u8) -> u32, msr| {
                port.number(|port| unsafe { f(port.frames[2].pointer(), FRAME_BYTES, msr, 1) })
            };
            let mut port = Port::new();
            format!("{}; {}", edit(&mut port, read, 0x2000), edit(&mut port, both, 0xC000_2000))
        },
    },
    Kept {
        name: "vector 0",
        document: "refused 12, nothing changes",
        port: || Port::ready().number(|port| port.call(Call::InjectInterrupt { vector: 0 }).number),
    },
    Kept {
        name: "reasons without a name",
        document: "refused 14, nothing changes; refused 14, nothing changes; refused 14, nothing changes",
        port: || [35, 38, 42].map(|reason| Port::running().refused(reason, |_| ())).join("; "),
    },
    Kept {
        name: "valid clear at reason 1",
        document: "refused 16, nothing changes",
        port: || Port::running().refused(1, |r| r.interruption_info = 0x20),
    },
    Kept {
        name: "other accesses to control registers",
        document: "refused 18, nothing changes; refused 18, nothing changes; refused 18, nothing changes; refused 18, nothing changes",
        port: || [3, 0x10, 0x20, 0x30].map(|q| Port::running().refused(28, |r| r.qualification = q)).join("; "),
    },
    Kept {
        name: "XSETBV",
        document: "refused 20, nothing changes; refused 19, nothing changes",
        port: || {
            let with = |rcx, rax| Port::running().refused(55, |r| (r.registers[1], r.registers[0]) = (rcx, rax));
            format!("{}; {}", with(1, 7), with(0, 6))
        },
    },
    Kept {
        name: "XCR0 values",
        document: "XCR0 0x1; answer [0, 0, 0]; RIP 0x1003, XCR0 0x7",
        port: || {
            let mut port = Port::running();
            let before = port.xcr0();
            let text = answer(port.report(55, |r| r.registers[0] = 7));
            format!("XCR0 {before:#x}; {text}; RIP {:#x}, XCR0 {:#x}", port.field(RIP), port.xcr0())
        },
    },
    Kept {
        name: "first XCR0",
        document: "XCR0 0x0; accepted, bytes change; XCR0 0x1",
        port: || {
            let mut port = Port::new();
            let before = port.xcr0();
            let text = port.number(|port| port.setup(&usual_setup()));
            format!("XCR0 {before:#x}; {text}; XCR0 {:#x}", port.xcr0())
        },
    },
    Kept {
        name: "no TRUE words",
        document: "refused 9, nothing changes",
        port: || {
            let setup = changed(|s| s.vmx_basic &= !VMX_FLEX_CONTROLS);
            Port::new().number(|port| port.setup(&setup))
        },
    },
    Kept {
        name: "vector 1",
        document: "answer [a, 0, 0]; 0x80000301, length 0x0",
        port: || {
            let mut port = Port::running();
            let text = answer(port.report(12, |_| ()));
            port.queue(1);
            port.enter();
            let [word, length] = [ENTRY_INTERRUPTION, ENTRY_INSTRUCTION_LENGTH].map(|encoding| port.field(encoding));
            format!("{text}; {word:#x}, length {length:#x}")
        },
    },
    Kept {
        name: "vector 21",
        document: "0x80000b15, code 0x7",
        port: || {
            let mut port = Port::ready();
            let value = port.field(CR0) | PE;
            assert_eq!(port.call(Call::WriteField { encoding: CR0 as u64, value }).number, 0);
            port.coded_event(21, 7)
        },
    },
    Kept { name: "codes in real mode", document: "0x8000030e, code 0x0", port: || Port::ready().coded_event(14, 2) },
    Kept {
        name: "other APIC accesses",
        document: "refused 21, nothing changes; refused 21, nothing changes",
        port: || [0x2000, 0x5000].map(|q| Port::running().refused(44, |r| r.qualification = q)).join("; "),
    },
    Kept {
        name: "register without a name",
        document: "refused 23, nothing changes; refused 23, nothing changes",
        port: || {
            let write = Port::ready().number(|port| port.call(Call::SetRegister { index: 4, value: 7 }).number);
            let read = Port::ready().number(|port| port.call(Call::GetRegister { index: 16 }).number);
            format!("{write}; {read}")
        },
    },
    Kept {
        name: "linear address past the end",
        document: "refused 17, nothing changes",
        port: || {
            let mut port = Port::ready();
            assert_eq!(port.call(Call::WriteField { encoding: 0x6808, value: 1 }).number, 0);
            port.number(|port| port.call(Call::Gla2gva { host_efer: 0, address: u64::MAX }).number)
        },
    },
    Kept {
        name: "failed entry",
        document: "answer [b, 0, 0]; refused 1, nothing changes; refused 1, nothing changes",
        port: || {
            let mut port = Port::running();
            let text = answer(port.report(33 | FAILED, |_| ()));
            let queue = port.number(|port| port.queue(3));
            let entry = port.number(|port| port.call(Call::Entry { host_stack: 0 }).number);
            format!("{text}; {queue}; {entry}")
        },
    },
    Kept {
        name: "SysRegRead's register",
        document: "answer [6, 1b, 0]",
        port: || answer(Port::running().report(31, |r| r.registers[1] = 0x1B)),
    },
    Kept {
        name: "APIC registers",
        document: "answer [9, 808, 5]",
        port: || answer(Port::running().report(32, |r| (r.registers[1], r.registers[0]) = (0x808, 5))),
    },
    Kept {
        name: "capability words after setup",
        document: "answer [0, 0, 0]; 0x2020",
        port: || {
            let mut port = Port::running();
            let text = answer(port.report(28, |r| (r.qualification, r.registers[0]) = (4, 0x20)));
            format!("{text}; {:#x}", port.field(CR4))
        },
    },
    Kept {
        name: "unbind",
        document: "answer [a, 0, 0]; resumed 1, host RSP 0x7000",
        port: || {
            let mut port = Port::running();
            let text = answer(port.report(12, |_| ()));
            let entry = port.call(Call::Entry { host_stack: 0x9000 });
            assert_eq!(entry.number, 0);
            format!("{text}; resumed {}, host RSP {:#x}", entry.results.words()[0] as u8, port.field(HOST_RSP))
        },
    },
    Kept {
        name: "reasons above 64",
        document: "refused 14, nothing changes; refused 14, nothing changes",
        port: || format!("{}; {}", Port::running().refused(65, |_| ()), Port::running().refused(70, |_| ())),
    },
    Kept {
        name: "entry pair that contradicts itself",
        document: "answer [0, 0, 0]",
        port: || {
            let mut port = Port::running();
            let pair: u64 = 0x200 << 32 | 1;
            let at = record::KEPT + 4 * 8;
            port.record.content_mut()[at..at + 8].copy_from_slice(&pair.to_le_bytes());
            answer(port.report(28, |r| (r.efer, r.registers[0]) = (0x100, 0x8000_0001)))
        },
    },
    Kept {
        name: "host CR3",
        document: "0xfff0000012345fff",
        port: || {
            let setup = changed(|s| s.host.cr3 = 0xFFF0_0000_1234_5FFF);
            format!("{:#x}", Port::set_up(&setup).field(HOST_CR3))
        },
    },
    Kept {
        name: "TR selector",
        document: "0xfff8, base 0x5",
        port: || {
            let mut port = Port::set_up(&changed(|s| (s.host.tr, s.host.tr_base) = (0xFFF8, 5)));
            format!("{:#x}, base {:#x}", port.field(HOST_TR), port.field(HOST_TR_BASE))
        },
    },
    Kept {
        name: "vendor text",
        document: "answer [0, 0, 0]; EBX 0x524d5652, ECX 0x56524d56, EDX 0x4d56524d",
        port: || {
            let mut port = Port::running();
            let text = answer(port.report(10, |r| r.registers[0] = 0x4000_0000));
            let [ebx, ecx, edx] = [3, 1, 2].map(|index| port.register(index));
            format!("{text}; EBX {ebx:#x}, ECX {ecx:#x}, EDX {edx:#x}")
        },
    },
    Kept {
        name: "wrapping",
        document: "refused 17, nothing changes; refused 10, nothing changes",
        port: || {
            let report = Port::running().refused(10, |r| r.rip = u64::MAX);
            let edit = Port::new().number(|port| port.edit_ports(u32::MAX, 1));
            format!("{report}; {edit}")
        },
    },
];

/// The names that have the original's side.
fn originals() -> impl Iterator<Item = &'static str> {
    include_str!("../../differences.txt").lines().filter(|line| !line.starts_with(' '))
}

pub fn run(_: &mut Random, _: u64, totals: &mut Totals) {
    let mut tally = Tally::new("docs/DIFFERENCES.md, the port's side");
    for kept in &KEPT {
        let ours = (kept.port)();
        tally.compare(ours == kept.document, || format!("{}: expected {}, port {ours}", kept.name, kept.document));
    }
    for name in originals() {
        let times = KEPT.iter().filter(|kept| kept.name == name).count();
        tally.compare(times == 1, || format!("{name}: {times} tests of the port"));
        let row = include_str!("../../../docs/DIFFERENCES.md").contains(&format!("[{name}]"));
        tally.compare(row, || format!("{name}: no row of docs/DIFFERENCES.md"));
    }
    totals.add(tally);
}
