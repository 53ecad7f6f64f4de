//! The speed of the port's archive and of the original, in one process and on the same inputs: the median of many batches, in
//! nanoseconds a call, the batches of both sides taking turns.
//!
//!   bench
//!
//! Setup, an event and each exit report are first made on both sides and compared, each trial with its call, and each page walk with its answer.

#[path = "../archive.rs"]
#[allow(dead_code)]
mod archive;

use oracle::access::{self, VmxVcpu};
use oracle::record::{self, LENGTH, Reference};
use oracle::samples::usual_setup;
use oracle::{FRAME_BYTES, Oracle, Report, Setup};
use std::cell::RefCell;
use std::hint::black_box;
use std::time::Instant;

const BATCHES: usize = 401;

const CR0: u32 = 0x6800;
/// Protection enable, in CR0.
const PE: u64 = 1;

/// The length of the largest trap sheet.
const SHEET_LARGEST: usize = 2_015_355;

const HEADING: &str = "\
One process, the same inputs, the median of 401 batches of each side, the batches taking turns. Nanoseconds a call.

The port: calls of the C archive. Each call tests the record's bytes and reads and changes it in place; setup decodes it and writes it back whole. An exit report
also decodes a block of 244 bytes, setup one of 273. A trial copies the record, or both I/O frames, and changes the copy. No call keeps anything between calls.

The Rust: the original's functions over arrays, called bare (no record, no block, nothing caught), as a release build has them: without overflow checks, all
crates optimized together. Its state stays in memory. A field is an array access in place of VMREAD or VMWRITE, an MSR a search of a short list in place of
RDMSR. An exit is its `run` with an empty queue: its assembly saves and loads the registers, and the report is stored in the arrays in place of the guest's run.
An entry alone is its `inject_pending_events`, without that assembly; it has no phases, no counts, no page walk, no trap sheet, no trials, and tests fewer things.
";

thread_local! {
    /// What the processor reports at the next exit of the original.
    static REPORT: RefCell<Report> = RefCell::new(Report::default());
}

macro_rules! port {
    ($name:ident($($argument:expr),* $(,)?)) => {
        unsafe { archive::$name().expect("the function")($($argument),*) }
    };
}

/// The port's bytes.
struct Port {
    record: [u8; LENGTH],
    a: [u8; FRAME_BYTES],
    b: [u8; FRAME_BYTES],
    msr: [u8; FRAME_BYTES],
    /// The blocks of a setup and of a report.
    setup: Vec<u8>,
    report: Vec<u8>,
    answer: [u64; 8],
}

/// The second buffers of trials, apart from the port's bytes.
struct Shown {
    record: [u8; LENGTH],
    a: [u8; FRAME_BYTES],
    b: [u8; FRAME_BYTES],
}

impl Shown {
    fn new() -> Box<Self> {
        Box::new(Shown { record: [0; LENGTH], a: [0; FRAME_BYTES], b: [0; FRAME_BYTES] })
    }

    fn copy_record(&mut self, port: &mut Port, i: u64) -> u64 {
        port.record[record::REGISTERS] = i as u8;
        self.record.copy_from_slice(black_box(&port.record));
        black_box(&mut self.record);
        0
    }

    fn copy_io_frames(&mut self, port: &mut Port, i: u64) -> u64 {
        port.a[0] = i as u8;
        self.a.copy_from_slice(black_box(&port.a));
        self.b.copy_from_slice(black_box(&port.b));
        black_box((&mut self.a, &mut self.b));
        0
    }
}

impl Port {
    fn new(setup: &Setup) -> Self {
        let zeros = [0; FRAME_BYTES];
        let setup = setup.block();
        let mut port =
            Port { record: [0; LENGTH], a: zeros, b: zeros, msr: zeros, setup, report: Vec::new(), answer: [0; 8] };
        assert_eq!(port.set_up(), 0);
        port
    }

    fn set_up(&mut self) -> u32 {
        let n = FRAME_BYTES;
        self.record[record::PHASE] = record::FRESH;
        let [a, b, m] = [&mut self.a, &mut self.b, &mut self.msr].map(|frame| frame.as_mut_ptr());
        let (r, block) = (self.record.as_mut_ptr(), &self.setup);
        port!(vcpu_setup(r, LENGTH, block.as_ptr(), block.len(), a, n, b, n, m, n))
    }

    fn edit_ports(&mut self, port: u32, count: u32, intercept: u8) -> u32 {
        let (a, b) = (self.a.as_mut_ptr(), self.b.as_mut_ptr());
        port!(vcpu_set_io_intercept_of_range(a, FRAME_BYTES, b, FRAME_BYTES, port, count, intercept))
    }

    fn try_ports(&self, shown: &mut Shown, port: u32, count: u32, intercept: u8) -> u32 {
        let n = FRAME_BYTES;
        let (a, b) = (self.a.as_ptr(), self.b.as_ptr());
        let (next_a, next_b) = (shown.a.as_mut_ptr(), shown.b.as_mut_ptr());
        port!(vcpu_try_io_intercept_of_range(a, n, b, n, next_a, n, next_b, n, port, count, intercept))
    }

    fn queue(&mut self, vector: u8, code: u32) -> u32 {
        port!(vcpu_queue_event(self.record.as_mut_ptr(), LENGTH, vector, 1, code))
    }

    fn enter(&mut self, host_stack: u64) -> u32 {
        let (mut resumed, mut event) = (0, 0);
        self.record[record::PHASE] = record::READY;
        port!(vcpu_entry(self.record.as_mut_ptr(), LENGTH, host_stack, &mut resumed, &mut event)) + event as u32
    }

    fn try_entry(&self, shown: &mut Shown, host_stack: u64) -> u32 {
        let (mut resumed, mut event) = (0, 0);
        let (r, next) = (self.record.as_ptr(), shown.record.as_mut_ptr());
        port!(vcpu_try_entry(r, LENGTH, next, LENGTH, host_stack, &mut resumed, &mut event)) + event as u32
    }

    fn try_enter(&mut self, shown: &mut Shown, host_stack: u64) -> u32 {
        self.record[record::PHASE] = record::READY;
        self.try_entry(shown, host_stack)
    }

    fn report(&mut self) -> u32 {
        let (r, block) = (self.record.as_mut_ptr(), &self.report);
        port!(vcpu_exit_report(r, LENGTH, block.as_ptr(), block.len(), self.answer.as_mut_ptr()))
    }

    fn report_running(&mut self) -> u32 {
        self.record[record::PHASE] = record::RUNNING;
        self.report()
    }

    fn try_report(&mut self, shown: &mut Shown) -> u32 {
        let (r, next, block) = (self.record.as_ptr(), shown.record.as_mut_ptr(), &self.report);
        let answer = self.answer.as_mut_ptr();
        port!(vcpu_try_exit_report(r, LENGTH, next, LENGTH, block.as_ptr(), block.len(), answer))
    }

    fn try_report_running(&mut self, shown: &mut Shown) -> u32 {
        self.record[record::PHASE] = record::RUNNING;
        self.try_report(shown)
    }

    fn field(&mut self, encoding: u64) -> u64 {
        let mut value = 0;
        assert_eq!(port!(vcpu_read_field(self.record.as_ptr(), LENGTH, encoding, &mut value)), 0);
        value
    }

    fn waiting(&mut self, events: u8) {
        self.record[record::WAITING] = events;
    }
}

/// Nanoseconds a call of a batch.
fn batch(calls: u64, from: u64, mut call: impl FnMut(u64) -> u64) -> f64 {
    let start = Instant::now();
    for i in from..from + calls {
        black_box(call(black_box(i)));
    }
    start.elapsed().as_nanos() as f64 / calls as f64
}

fn median(mut times: Vec<f64>) -> f64 {
    times.sort_by(f64::total_cmp);
    times[times.len() / 2]
}

/// A row with a goal: the greatest figure that meets it, a ratio or a time.
struct Goal {
    name: String,
    figure: f64,
    most: f64,
    unit: &'static str,
}

struct Bench {
    port: Port,
    oracle: Oracle,
    goals: Vec<Goal>,
}

impl Bench {
    /// A row: both sides in turn.
    fn row(
        &mut self,
        name: &str,
        calls: u64,
        mut port: impl FnMut(&mut Port, u64) -> u64,
        mut rust: impl FnMut(&mut VmxVcpu, u64) -> u64,
    ) -> f64 {
        let (mut ours, mut theirs) = (Vec::new(), Vec::new());
        let Bench { port: bytes, oracle, .. } = self;
        oracle.bare(|vcpu| {
            for k in 0..BATCHES as u64 {
                ours.push(batch(calls, k * calls, |i| port(bytes, i)));
                theirs.push(batch(calls, k * calls, |i| rust(vcpu, i)));
            }
        });
        let (ours, theirs) = (median(ours), median(theirs));
        let ratio = ours / theirs;
        let digits = if ratio < 0.1 { 4 } else { 2 };
        println!("| {name} | {ours:.1} | {theirs:.1} | {ratio:.digits$} |");
        ratio
    }

    /// A row with a goal: the greatest ratio that meets it.
    fn goal_row(
        &mut self,
        goal: f64,
        name: &str,
        calls: u64,
        port: impl FnMut(&mut Port, u64) -> u64,
        rust: impl FnMut(&mut VmxVcpu, u64) -> u64,
    ) {
        let ratio = self.row(name, calls, port, rust);
        self.goals.push(Goal { name: name.to_string(), figure: ratio, most: goal, unit: "" });
    }

    /// A row of the port alone.
    fn lone_row(&mut self, name: &str, calls: u64, mut port: impl FnMut(&mut Port, u64) -> u64) -> f64 {
        let bytes = &mut self.port;
        let times = (0..BATCHES as u64).map(|k| batch(calls, k * calls, |i| port(bytes, i))).collect();
        let time = median(times);
        println!("| {name} | {time:.1} | - | - |");
        time
    }

    /// A row of the port alone with a goal: the greatest time that meets it.
    fn lone_goal_row(&mut self, goal: f64, name: &str, calls: u64, port: impl FnMut(&mut Port, u64) -> u64) {
        let time = self.lone_row(name, calls, port);
        self.goals.push(Goal { name: name.to_string(), figure: time, most: goal, unit: " ns" });
    }

    /// A trial, its call and a copy of what it shows, in turn. The goal: the call, one and a half copies and 5 ns.
    fn trial_rows(
        &mut self,
        name: &str,
        mut trial: impl FnMut(&mut Port, &mut Shown, u64) -> u64,
        mut call: impl FnMut(&mut Port, u64) -> u64,
        (copied, copy): Copied,
    ) {
        let (port, shown, calls) = (&mut self.port, &mut Shown::new(), 2000);
        let mut times = [(); 3].map(|()| Vec::new());
        for k in 0..BATCHES as u64 {
            times[0].push(batch(calls, k * calls, |i| trial(port, shown, i)));
            times[1].push(batch(calls, k * calls, |i| call(port, i)));
            times[2].push(batch(calls, k * calls, |i| copy(shown, port, i)));
        }
        let [trial, call, copy] = times.map(median);
        let name = format!("trial of {name}");
        println!("| {name} | {trial:.1} | - | - |");
        println!("| call beside the {name} | {call:.1} | - | - |");
        println!("| memcpy of {copied} beside the {name} | {copy:.1} | - | - |");
        self.goals.push(Goal { name, figure: trial, most: call + 1.5 * copy + 5.0, unit: " ns" });
    }

    fn lone_rust_row(&mut self, name: &str, calls: u64, mut rust: impl FnMut(&mut VmxVcpu, u64) -> u64) {
        let times =
            self.oracle.bare(|vcpu| (0..BATCHES as u64).map(|k| batch(calls, k * calls, |i| rust(vcpu, i))).collect());
        println!("| {name} | - | {:.1} | - |", median(times));
    }

    /// Sets PE, without which the port gives no code, so that both sides do the same with a page fault: its word and its code go in.
    fn prepare_page_faults(&mut self) {
        let value = self.port.field(CR0 as u64) | PE;
        let Bench { port, oracle, .. } = self;
        assert_eq!(port!(vcpu_write_field(port.record.as_mut_ptr(), LENGTH, CR0 as u64, value)), 0);
        oracle.write_field(CR0, value).expect("CR0");
        // The entry's event is 2: written.
        assert_eq!((port.queue(14, 5), port.enter(0)), (0, 2));
        oracle.queue_event(14, Some(5));
        oracle.bare(|vcpu| access::inject_pending_events(vcpu)).expect("an event");
        for (encoding, value) in [(0x4016, 0x8000_0B0E), (0x4018, 5)] {
            assert_eq!((port.field(encoding as u64), oracle.read_field(encoding)), (value, Ok(value)));
        }
    }

    /// Makes this the report of both sides; both must answer the same to it.
    fn prepare_report(&mut self, mut report: Report) {
        // Twice: the first may move a control register, which the second must report.
        for _ in 0..2 {
            (report.cr0, report.cr4) = (self.port.field(0x6800), self.port.field(0x6804));
            self.port.report = report.block();
            assert_eq!(self.port.report_running(), 0);
            REPORT.set(report.clone());
            let answer = self.oracle.exit(&report).expect("an answer");
            assert_eq!(answer.words(), self.port.answer, "{report:x?}");
        }
    }
}

/// The original's `run`, with the report in place of the guest's run.
fn run(vcpu: &mut VmxVcpu) -> u64 {
    let between = Box::new(|vcpu: &mut VmxVcpu, _| REPORT.with_borrow(|report| report.load(vcpu, true)));
    black_box(access::run(vcpu, between)).is_ok() as u64
}

fn leaves(bench: &mut Bench) {
    bench.oracle.bare(|_| access::control_word(0x7F_0000_0016, 0x16, 9, 0)).expect("a word");
    let set_control = archive::vcpu_set_control().expect("the function");
    bench.goal_row(
        1.0,
        "control word",
        10_000,
        |_, i| {
            let mut word = 0;
            unsafe { set_control(0x16, 0x7F, i as u32, 9, 0, &mut word) as u64 + word as u64 }
        },
        |_, i| access::set_control(i as u32, 9, 0).is_ok() as u64,
    );
    bench.row(
        "one port",
        10_000,
        |port, i| port.edit_ports(i as u32 & 0x1FFF, 1, (i >> 13 & 1) as u8) as u64,
        |vcpu, i| {
            vcpu.set_io_intercept_of_range(i as u32 & 0x1FFF, 1, i >> 13 & 1 != 0);
            0
        },
    );
    bench.row(
        "8,192 ports (all that the Rust reaches in a frame)",
        100,
        |port, i| port.edit_ports(0, 0x2000, (i & 1) as u8) as u64,
        |vcpu, i| {
            vcpu.set_io_intercept_of_range(0, 0x2000, i & 1 != 0);
            0
        },
    );
    bench.lone_row("65,536 ports", 500, |port, i| port.edit_ports(0, 0x1_0000, (i & 1) as u8) as u64);
    bench.lone_row("memset of both I/O frames", 500, |port, i| {
        let byte = if i & 1 != 0 { 0xFF } else { 0 };
        black_box(&mut port.a).fill(byte);
        black_box(&mut port.b).fill(byte);
        0
    });
    bench.lone_row("a refused port edit", 10_000, |port, i| port.edit_ports(65_535, 2, (i & 1) as u8) as u64);
    bench.row(
        "one MSR, reads",
        10_000,
        |port, i| {
            let frame = port.msr.as_mut_ptr();
            port!(vcpu_set_read_intercept(frame, FRAME_BYTES, i as u32 & 0x1FFF, (i >> 13 & 1) as u8)) as u64
        },
        |vcpu, i| {
            access::set_read_intercept(vcpu, i as u32 & 0x1FFF, i >> 13 & 1 != 0);
            0
        },
    );
}

/// The MSRs that the original's setup reads: the host's, the fixed bits, the control words' capabilities, the guest's PAT.
const SETUP_MSRS: [u32; 19] = [
    0x277,
    0xC000_0080,
    0xC000_0100,
    0xC000_0101,
    0x486,
    0x487,
    0x488,
    0x489,
    0x48D,
    0x481,
    0x48E,
    0x482,
    0x48B,
    0x48B,
    0x48F,
    0x483,
    0x490,
    0x484,
    0x277,
];

fn setup(bench: &mut Bench, setup: &Setup) {
    bench.oracle.load_setup(setup);
    assert!(bench.oracle.bare(|vcpu| access::setup(vcpu, setup.entry, setup.ept_root)).is_ok());
    assert_eq!(bench.port.set_up(), 0);
    let mut reference = Reference::default();
    reference.set_up(setup);
    assert!(bench.port.record == record::image(&bench.oracle, &reference), "setup");
    let (entry, root) = (setup.entry, setup.ept_root);
    let rust = move |vcpu: &mut VmxVcpu, _| access::setup(vcpu, entry, root).is_ok() as u64;
    bench.goal_row(1.0, "setup", 1000, |port, _| port.set_up() as u64, rust);
    let machine = bench.oracle.machine();
    let found = |_| SETUP_MSRS.iter().map(|&msr| machine.msr(black_box(msr))).fold(0, u64::wrapping_add);
    let times = (0..BATCHES as u64).map(|k| batch(1000, 1000 * k, found)).collect();
    println!("| of a setup of the Rust: its MSRs found in the list | - | {:.1} | - |", median(times));
}

fn events_and_entries(bench: &mut Bench) {
    bench.row(
        "queue an event",
        2000,
        |port, i| {
            if i & 31 == 0 {
                port.waiting(0);
            }
            port.queue(14, i as u32) as u64
        },
        |vcpu, i| {
            if i & 31 == 0 {
                access::events_mut(vcpu).clear();
            }
            vcpu.queue_event(14, Some(i as u32));
            0
        },
    );
    bench.port.waiting(0);
    bench.oracle.bare(|vcpu| access::events_mut(vcpu).clear());
    bench.prepare_page_faults();
    bench.goal_row(
        1.5,
        "event: queued, and its word written by an entry",
        2000,
        |port, i| (port.queue(14, i as u32) + port.enter(i)) as u64,
        |vcpu, i| {
            vcpu.queue_event(14, Some(i as u32));
            access::inject_pending_events(vcpu).is_ok() as u64
        },
    );
    bench.row(
        "entry, none waits",
        2000,
        |port, i| port.enter(i) as u64,
        |vcpu, _| access::inject_pending_events(vcpu).is_ok() as u64,
    );
}

/// Reports that differ from the usual one: name and what to change.
type Change = (&'static str, fn(&mut Report));
const EXTERNAL_INTERRUPT: Change = ("external interrupt", |r| (r.reason, r.interruption_info) = (1, 0x8000_0020));
const REPORTS: [Change; 8] = [
    ("CPUID, leaf 1", |r| (r.reason, r.registers[0]) = (10, 1)),
    ("I/O, a byte to port 0x60", |r| (r.reason, r.qualification) = (30, 0x60_0000)),
    ("move to CR0", |r| (r.reason, r.registers[0]) = (28, 0x11)),
    ("interrupt window", |r| r.reason = 7),
    EXTERNAL_INTERRUPT,
    ("VMCALL", |r| r.reason = 18),
    ("RDMSR", |r| (r.reason, r.registers[1]) = (31, 0x10)),
    ("HLT, which is not dealt with", |r| r.reason = 12),
];

fn usual_report(change: fn(&mut Report)) -> Report {
    let mut report = Report { rip: 0x1000, rflags: 2, instruction_length: 2, ..Report::default() };
    change(&mut report);
    report
}

/// The original panics at every value of XCR0, so the row is the port's alone.
fn xsetbv(bench: &mut Bench) {
    let mut report = usual_report(|r| (r.reason, r.registers[0]) = (55, 7));
    (report.cr0, report.cr4) = (bench.port.field(0x6800), bench.port.field(0x6804));
    bench.port.report = report.block();
    assert_eq!((bench.port.report_running(), bench.port.answer), (0, [0; 8]));
    let mut xcr0 = 0;
    assert_eq!(port!(vcpu_get_xcr0(bench.port.record.as_ptr(), LENGTH, &mut xcr0)) as u64 + xcr0, 7);
    bench.lone_row("exit report: XSETBV", 2000, |port, _| port.report_running() as u64);
}

fn reports(bench: &mut Bench) {
    for (name, change) in REPORTS {
        bench.prepare_report(usual_report(change));
        let name = format!("exit report: {name}");
        bench.row(&name, 2000, |port, _| port.report_running() as u64, |vcpu, _| run(vcpu));
    }
    xsetbv(bench);
    bench.lone_rust_row("of each exit of the Rust: the report stored in the arrays", 2000, |vcpu, _| {
        REPORT.with_borrow(|report| report.load(vcpu, true));
        0
    });
    for (name, change) in &REPORTS[..3] {
        bench.prepare_report(usual_report(*change));
        let name = format!("entry + report: {name}");
        bench.goal_row(1.0, &name, 2000, |port, i| (port.enter(i) + port.report()) as u64, |vcpu, _| run(vcpu));
    }
    bench.goal_row(
        0.7,
        "event queued + entry + report: move to CR0",
        2000,
        |port, i| (port.queue(14, i as u32) + port.enter(i) + port.report()) as u64,
        |vcpu, i| {
            vcpu.queue_event(14, Some(i as u32));
            run(vcpu)
        },
    );
}

/// What a trial shows, by its name, and a copy of it.
type Copied = (&'static str, fn(&mut Shown, &mut Port, u64) -> u64);
const RECORD: Copied = ("the record", Shown::copy_record);
const IO_FRAMES: Copied = ("both I/O frames", Shown::copy_io_frames);

/// What a trial shows must be what its call then leaves.
fn trials(bench: &mut Bench) {
    let (name, change) = EXTERNAL_INTERRUPT;
    bench.prepare_report(usual_report(change));
    let (port, shown) = (&mut bench.port, &mut Shown::new());
    assert_eq!(port.try_report_running(shown), 0);
    let answer = port.answer;
    assert_eq!((port.report_running(), port.answer), (0, answer));
    assert!(shown.record == port.record, "report");
    assert_eq!((port.try_enter(shown, 0), port.enter(0)), (0, 0));
    assert!(shown.record == port.record, "entry");
    assert_eq!((port.try_ports(shown, 0x60, 1, 1), port.edit_ports(0x60, 1, 1)), (0, 0));
    assert!(shown.a == port.a && shown.b == port.b, "one port");
    bench.trial_rows(
        &format!("exit report: {name}"),
        |port, shown, _| port.try_report_running(shown) as u64,
        |port, _| port.report_running() as u64,
        RECORD,
    );
    bench.trial_rows(
        "entry, none waits",
        |port, shown, i| port.try_enter(shown, i) as u64,
        |port, i| port.enter(i) as u64,
        RECORD,
    );
    bench.trial_rows(
        "one port",
        |port, shown, i| port.try_ports(shown, i as u32 & 0x1FFF, 1, (i >> 13 & 1) as u8) as u64,
        |port, i| port.edit_ports(i as u32 & 0x1FFF, 1, (i >> 13 & 1) as u8) as u64,
        IO_FRAMES,
    );
}

fn accesses(bench: &mut Bench) {
    bench.goal_row(
        1.5,
        "read a field",
        10_000,
        |port, _| port.field(0x681E),
        |_, _| access::read_rip().unwrap_or(0) as u64,
    );
    bench.goal_row(
        1.5,
        "write a field",
        10_000,
        |port, i| port!(vcpu_write_field(port.record.as_mut_ptr(), LENGTH, 0x681E, i)) as u64,
        |_, i| access::write_rip(i as usize).is_ok() as u64,
    );
    bench.goal_row(
        1.5,
        "read a register",
        10_000,
        |port, i| {
            let mut value = 0;
            port!(vcpu_get_reg_of_index(port.record.as_ptr(), LENGTH, i & 3, &mut value)) as u64 + value
        },
        |vcpu, i| access::get_register(vcpu, i as u8 & 3),
    );
    bench.goal_row(
        1.5,
        "write a register",
        10_000,
        |port, i| port!(vcpu_set_reg_of_index(port.record.as_mut_ptr(), LENGTH, i & 3, i)) as u64,
        |vcpu, i| {
            access::set_register(vcpu, i as u8 & 3, i);
            0
        },
    );
    bench.row(
        "APIC value",
        10_000,
        |port, i| {
            port.record[record::PHASE] = record::WAITING_PHASE;
            port!(vcpu_apic_value(port.record.as_mut_ptr(), LENGTH, i)) as u64
        },
        |vcpu, i| {
            access::write_edx_eax(vcpu, i);
            0
        },
    );
}

fn readings(bench: &mut Bench) {
    let host_efer = 0x400;
    bench.oracle.cpu_mode(host_efer);
    bench.row(
        "CPU mode",
        10_000,
        |port, _| {
            let mut mode = 0;
            port!(vcpu_get_cpu_mode(port.record.as_ptr(), LENGTH, host_efer, &mut mode)) as u64 + mode as u64
        },
        |vcpu, _| access::cpu_mode(vcpu) as u64,
    );
    bench.row(
        "page-walk reading",
        10_000,
        |port, _| {
            let (mut entry, mut level, mut width, mut flags) = (0, 0, 0, 0);
            let r = port.record.as_ptr();
            port!(vcpu_get_ptw_info(r, LENGTH, &mut entry, &mut level, &mut width, &mut flags)) as u64 + entry
        },
        |vcpu, _| black_box(access::page_walk(vcpu)).top_entry,
    );
    bench.row(
        "linear address",
        10_000,
        |port, i| {
            let mut linear = 0;
            port!(vcpu_gla2gva(port.record.as_ptr(), LENGTH, host_efer, i, &mut linear)) as u64 + linear
        },
        |vcpu, i| access::gla2gva(vcpu, i),
    );
    bench.lone_row("counts", 10_000, |port, _| {
        let (mut phase, mut launched, mut waiting, mut entries, mut held) = (0, 0, 0, 0, 0);
        let r = port.record.as_ptr();
        let number =
            port!(vcpu_get_counts(r, LENGTH, &mut phase, &mut launched, &mut waiting, &mut entries, &mut held));
        number as u64 + entries as u64
    });
    bench.lone_row("a record that is refused", 10_000, |port, i| {
        port.record[record::PHASE] = 5;
        port.queue(14, i as u32) as u64
    });
    let mut copy = [0; LENGTH];
    bench.lone_row("memcpy of the record", 10_000, |port, i| {
        port.record[2] = i as u8;
        copy.copy_from_slice(black_box(&port.record));
        black_box(&mut copy);
        0
    });
}

/// A walk of the guest's page tables: the session's words, the entries of a memory that is zero else, and the number and the answer for an address at the
/// start of a page.
struct Walk {
    name: &'static str,
    cr0: u64,
    cr4: u64,
    entries: &'static [(usize, u64)],
    address: u64,
    number: u32,
    answer: [u64; 3],
}

const WALKED_MEMORY: usize = 0x6000;
const PAGING: u64 = 0x8000_0001;
const LONGEST: Walk = Walk {
    name: "page walk: 4 levels to a 4-KByte page",
    cr0: PAGING,
    cr4: 0x20,
    entries: &[(0x1008, 0x2007), (0x2008, 0x3007), (0x3008, 0x4007), (0x4008, 0x5007)],
    address: 0x80_4020_1000,
    number: 0,
    answer: [0, 0x5000, 0],
};
const WALKS: [Walk; 4] = [
    LONGEST,
    Walk {
        name: "page walk: 2 levels to a 4-MByte page",
        cr4: 0x10,
        entries: &[(0x100C, 0x0080_2087)],
        address: 0x00C0_1000,
        answer: [0, 0x1_0080_1000, 0],
        ..LONGEST
    },
    Walk { name: "page walk: no paging", cr0: 1, answer: [0, LONGEST.address, 0], ..LONGEST },
    Walk {
        name: "page walk refused by 26: the last of 4 tables is past the end",
        entries: &[(0x1008, 0x2007), (0x2008, 0x3007), (0x3008, 0x6007)],
        number: 26,
        answer: [0; 3],
        ..LONGEST
    },
];

/// A supervisor's read. The rows are the port's alone.
fn walks(bench: &mut Bench) {
    assert_eq!(bench.port.set_up(), 0);
    let walk = |port: &Port, memory: &[u8], address: u64| {
        let (r, mut answer) = (port.record.as_ptr(), [0; 3]);
        let m = memory.as_ptr();
        (port!(vcpu_page_walk(r, LENGTH, m, memory.len(), address, 0, answer.as_mut_ptr())), answer)
    };
    for Walk { name, cr0, cr4, entries, address, number, answer } in WALKS {
        for (encoding, word) in [(0x6800, cr0), (0x6802, 0x1000), (0x6804, cr4), (0x2806, 0xD00)] {
            assert_eq!(port!(vcpu_write_field(bench.port.record.as_mut_ptr(), LENGTH, encoding, word)), 0);
        }
        let mut memory = vec![0; WALKED_MEMORY];
        for &(at, entry) in entries {
            memory[at..at + 8].copy_from_slice(&u64::to_le_bytes(entry));
        }
        assert_eq!(walk(&bench.port, &memory, address), (number, answer), "{name}");
        let row = |port: &mut Port, i: u64| walk(port, &memory, address + i % 0x1000).1[1];
        if name == LONGEST.name {
            bench.lone_goal_row(70.0, name, 10_000, row);
        } else {
            bench.lone_row(name, 10_000, row);
        }
    }
}

/// The sheet of the port's frames: the number and the length.
fn sheet_of(port: &Port, a_length: usize, output: &mut [u8]) -> (u32, u64) {
    let (n, mut length) = (FRAME_BYTES, 0);
    let [a, b, m] = [&port.a, &port.b, &port.msr].map(|frame| frame.as_ptr());
    let number = port!(vcpu_trap_sheet(a, a_length, b, n, m, n, output.as_mut_ptr(), output.len(), &mut length));
    (number, length)
}

/// Frames filled with a byte and then, if so, set up; the lines of their sheet; the goal in nanoseconds, and the calls of a batch.
struct Sheet {
    name: &'static str,
    byte: u8,
    set_up: bool,
    lines: u64,
    goal: f64,
    calls: u64,
}

const EMPTY: Sheet = Sheet { name: "empty frames", byte: 0, set_up: false, lines: 3, goal: 15_000.0, calls: 50 };
const FULL: Sheet = Sheet { name: "full frames", byte: 0xFF, lines: 8, ..EMPTY };
const SET_UP: Sheet = Sheet { name: "setup's frames", set_up: true, lines: 8, ..EMPTY };
const WORST: Sheet = Sheet { name: "every second bit", byte: 0x55, lines: 49_155, goal: 5e6, calls: 1, ..EMPTY };

fn fill_frames(port: &mut Port, sheet: &Sheet) {
    [&mut port.a, &mut port.b, &mut port.msr].into_iter().for_each(|frame| frame.fill(sheet.byte));
    if sheet.set_up {
        assert_eq!(port.set_up(), 0);
    }
}

/// The rows are the port's alone; a copy of the three frames and a fill of the largest sheet stand beside them.
fn trap_sheets(bench: &mut Bench) {
    let mut output = vec![0; SHEET_LARGEST];
    for sheet in [EMPTY, FULL, SET_UP, WORST] {
        fill_frames(&mut bench.port, &sheet);
        assert_eq!(sheet_of(&bench.port, FRAME_BYTES, &mut output), (0, 41 * sheet.lines));
        bench.lone_goal_row(sheet.goal, &format!("trap sheet: {}", sheet.name), sheet.calls, |port, _| {
            sheet_of(port, FRAME_BYTES, &mut output).1
        });
    }
    bench.lone_goal_row(5.0, "trap sheet refused by 2", 10_000, |port, _| {
        sheet_of(port, FRAME_BYTES - 1, &mut output).0 as u64
    });
    for sheet in [EMPTY, SET_UP] {
        fill_frames(&mut bench.port, &sheet);
        assert_eq!(sheet_of(&bench.port, FRAME_BYTES, &mut []), (24, 0));
        bench.lone_row(&format!("trap sheet refused by 24: {}", sheet.name), sheet.calls, |port, _| {
            sheet_of(port, FRAME_BYTES, &mut []).0 as u64
        });
    }
    let mut copy = [0; 3 * FRAME_BYTES];
    bench.lone_row("memcpy of the three frames", 1000, |port, i| {
        port.a[0] = i as u8;
        for (to, from) in copy.chunks_mut(FRAME_BYTES).zip([&port.a, &port.b, &port.msr]) {
            to.copy_from_slice(black_box(from));
        }
        black_box(&mut copy);
        0
    });
    bench.lone_row("memset of the largest sheet", 5, |_, i| {
        black_box(&mut output).fill(i as u8);
        0
    });
}

/// Calls that a step refuses, on an accepted record.
fn refusals(bench: &mut Bench) {
    let refused = |name: &str, number: u32| format!("{name} refused by {number}");
    let mut shown = Shown::new();
    bench.port.record[record::PHASE] = record::READY;
    bench.port.waiting(64);
    bench.lone_row(&refused("queue", 13), 10_000, |port, i| port.queue(14, i as u32) as u64);
    bench.port.waiting(0);
    bench.lone_row(&refused("entry", 1), 10_000, |port, i| {
        let (mut resumed, mut event) = (0, 0);
        port.record[record::PHASE] = record::RUNNING;
        port!(vcpu_entry(port.record.as_mut_ptr(), LENGTH, i, &mut resumed, &mut event)) as u64
    });
    bench.lone_row(&refused("trial of entry", 1), 10_000, |port, i| {
        port.record[record::PHASE] = record::RUNNING;
        port.try_entry(&mut shown, i) as u64
    });
    bench.lone_row(&refused("write of a register", 23), 10_000, |port, i| {
        port!(vcpu_set_reg_of_index(port.record.as_mut_ptr(), LENGTH, 4, i)) as u64
    });
    bench.lone_row(&refused("write of a field", 4), 10_000, |port, i| {
        port!(vcpu_write_field(port.record.as_mut_ptr(), LENGTH, 0x4402, i)) as u64
    });
    bench.port.record[record::PHASE] = record::READY;
    bench.lone_row(&refused("APIC value", 1), 10_000, |port, i| {
        port!(vcpu_apic_value(port.record.as_mut_ptr(), LENGTH, i)) as u64
    });
    bench.lone_row(&refused("exit report", 1), 10_000, |port, _| port.report() as u64);
    bench.lone_row(&refused("trial of exit report", 1), 10_000, |port, _| port.try_report(&mut shown) as u64);
    bench.port.report = usual_report(|r| r.reason = 65).block();
    bench.lone_row(&refused("exit report", 14), 10_000, |port, _| port.report_running() as u64);
    bench.port.record[record::PHASE] = record::READY;
    bench.lone_row(&refused("setup", 1), 10_000, |port, _| {
        let n = FRAME_BYTES;
        let [a, b, m] = [&mut port.a, &mut port.b, &mut port.msr].map(|frame| frame.as_mut_ptr());
        let (r, block) = (port.record.as_mut_ptr(), &port.setup);
        port!(vcpu_setup(r, LENGTH, block.as_ptr(), block.len(), a, n, b, n, m, n)) as u64
    });
}

/// The processor's name, and the load of the last minute.
fn machine() -> String {
    let read = |path: &str| std::fs::read_to_string(path).unwrap_or_default();
    let information = read("/proc/cpuinfo");
    let name = information.lines().find(|line| line.starts_with("model name"));
    let name = name.and_then(|line| line.split(": ").nth(1)).unwrap_or("an unknown processor");
    let cores = std::thread::available_parallelism().map_or(0, |cores| cores.get());
    let load = read("/proc/loadavg").split_whitespace().next().unwrap_or("unknown").to_string();
    format!("{name}, {cores} cores, load of the last minute at the start {load}")
}

fn main() {
    println!("{}\n\n{HEADING}", machine());
    println!("| call | port | Rust | ratio |\n|---|---|---|---|");
    let usual = usual_setup();
    let mut oracle = Oracle::new();
    oracle.setup(&usual).expect("setup");
    let mut bench = Bench { port: Port::new(&usual), oracle, goals: Vec::new() };
    leaves(&mut bench);
    setup(&mut bench, &usual);
    events_and_entries(&mut bench);
    reports(&mut bench);
    trials(&mut bench);
    accesses(&mut bench);
    readings(&mut bench);
    walks(&mut bench);
    trap_sheets(&mut bench);
    refusals(&mut bench);
    println!("\nGoals:");
    for Goal { name, figure, most, unit } in &bench.goals {
        let missed = if figure <= most { "" } else { ": missed" };
        let digits = if unit.is_empty() { 2 } else { 1 };
        println!("- {name}: {figure:.digits$}{unit}, at most {most:.1}{unit}{missed}");
    }
}
