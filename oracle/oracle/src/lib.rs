//! The original x86_vcpu over arrays in place of the processor.
//!
//! Every call runs the original's own code. A panic or an error of the original is returned as a
//! [`Failure`]; the state is then as the original left it. Where a refused call is to change nothing,
//! use [`Oracle::attempt`].

pub mod blocks;
pub mod calls;
pub mod generate;
pub mod leaves;
pub mod record;
mod refusal;
pub mod samples;
mod state;
mod words;

pub use machine::Machine;
pub use refusal::{Call, refusal_number};
pub use state::State;
pub use words::{Answer, Capabilities, Entered, EntryEvent, Failure, HostWords, Report, Setup, VMX_FLEX_CONTROLS};
pub use x86_vcpu::access;
pub use x86_vcpu::access::PageWalk;
pub use x86_vcpu::access::fields::FIELDS;

use machine::ApicCall;
use std::cell::Cell;
use std::panic::{AssertUnwindSafe, catch_unwind};
use std::rc::Rc;
use std::sync::Once;
use x86_vcpu::access::VmxVcpu;
use x86_vcpu::access::fields::{self, Write};

pub type Event = (u8, Option<u32>);
pub type Outcome<T> = Result<T, Failure>;

/// Frames in the order in which the original allocates them; the first is the VMCS region.
const FRAME_IO_A: usize = 1;
const FRAME_IO_B: usize = 2;
const FRAME_MSR: usize = 3;
pub const FRAME_BYTES: usize = 4096;

/// The enums list 157 fields. Document 01's table has 154: all but the first three, which are those of
/// `VmcsControl16` (encodings 0, 2 and 4).
pub const FIELDS_BEFORE_TABLE: usize = 3;

/// Document 01's numbers for fields.
pub const NO_SUCH_FIELD: u32 = 3;
pub const READ_ONLY_FIELD: u32 = 4;
pub const TOO_WIDE_FOR_FIELD: u32 = 5;

/// The width of an encoding's field in bits.
pub fn field_bits(encoding: u32) -> u32 {
    [16, 64, 32, 64][(encoding >> 13 & 3) as usize]
}

thread_local! {
    static INSIDE: Cell<bool> = const { Cell::new(false) };
}

/// Panics of the original are returned as results and not printed; others are printed as usual.
fn quiet_inside_panics() {
    static ONCE: Once = Once::new();
    ONCE.call_once(|| {
        let usual = std::panic::take_hook();
        std::panic::set_hook(Box::new(move |info| {
            if !INSIDE.get() || std::env::var_os("ORACLE_SHOW_PANICS").is_some() {
                usual(info)
            }
        }));
    });
}

/// Run the original's code on this machine and catch its panics.
fn guarded<T>(machine: &mut Box<Machine>, f: impl FnOnce() -> axerrno::AxResult<T>) -> Outcome<T> {
    quiet_inside_panics();
    machine::swap(machine);
    let was_inside = INSIDE.replace(true);
    let result = catch_unwind(AssertUnwindSafe(f));
    INSIDE.set(was_inside);
    machine::swap(machine);
    match result {
        Ok(Ok(value)) => Ok(value),
        Ok(Err(kind)) => Err(Failure::Error { kind: format!("{kind:?}"), message: axerrno::take_message() }),
        Err(payload) => Err(words::failure_of(payload)),
    }
}

/// One vCPU of the original with its machine.
pub struct Oracle {
    vcpu: Option<Box<VmxVcpu>>,
    machine: Box<Machine>,
    /// Clear bit 31 of the entry interruption field at an exit that is not a failed entry, as the
    /// processor does. The original's own code never clears it.
    pub exit_clears_entry_valid: bool,
}

/// All that a call can change.
#[derive(Clone)]
pub struct Saved {
    machine: Box<Machine>,
    registers: [u64; 16],
    launched: bool,
    events: Vec<Event>,
    frames: [[u8; FRAME_BYTES]; 3],
}

impl Default for Oracle {
    fn default() -> Self {
        Self::new()
    }
}

impl Drop for Oracle {
    fn drop(&mut self) {
        // The original reads its frames' addresses when it is dropped.
        let vcpu = self.vcpu.take();
        machine::swap(&mut self.machine);
        drop(vcpu);
        machine::swap(&mut self.machine);
    }
}

impl Oracle {
    pub fn new() -> Self {
        Self::on(Machine::new())
    }

    /// On a machine whose words the original reads when the vCPU is made.
    pub fn on(machine: Machine) -> Self {
        let mut machine = Box::new(machine);
        let vcpu = guarded(&mut machine, || VmxVcpu::new(0, 0)).expect("a new vCPU");
        Oracle { vcpu: Some(Box::new(vcpu)), machine, exit_clears_entry_valid: true }
    }

    fn vcpu(&self) -> &VmxVcpu {
        self.vcpu.as_ref().expect("the vCPU")
    }

    fn vcpu_mut(&mut self) -> &mut VmxVcpu {
        self.vcpu.as_mut().expect("the vCPU")
    }

    /// Run the original's code on this vCPU.
    fn inside<T>(&mut self, f: impl FnOnce(&mut VmxVcpu) -> axerrno::AxResult<T>) -> Outcome<T> {
        let vcpu = self.vcpu.as_mut().expect("the vCPU");
        guarded(&mut self.machine, || f(vcpu))
    }

    /// The original's own functions on this vCPU, with nothing around each call: what they panic at is not caught.
    pub fn bare<T>(&mut self, f: impl FnOnce(&mut VmxVcpu) -> T) -> T {
        let vcpu = self.vcpu.as_mut().expect("the vCPU");
        machine::swap(&mut self.machine);
        let result = f(vcpu);
        machine::swap(&mut self.machine);
        result
    }

    /// The words of a setup, for setups by the original's own function; both PAT words are the guest's.
    pub fn load_setup(&mut self, args: &Setup) {
        args.load(&mut self.machine);
        self.machine.pat_reads.clear();
        self.machine.set_msr(words::MSR_PAT, args.guest_pat);
    }

    /// Do a call; if it fails, put everything back as it was.
    pub fn attempt<T>(&mut self, f: impl FnOnce(&mut Oracle) -> Outcome<T>) -> Outcome<T> {
        let saved = self.save();
        let result = f(self);
        if result.is_err() {
            self.restore(&saved);
        }
        result
    }

    pub fn setup(&mut self, args: &Setup) -> Outcome<()> {
        args.load(&mut self.machine);
        let result = self.inside(|vcpu| access::setup(vcpu, args.entry, args.ept_root));
        self.machine.gdt = Vec::new();
        result
    }

    pub fn queue_event(&mut self, vector: u8, code: Option<u32>) {
        self.vcpu_mut().queue_event(vector, code)
    }

    pub fn inject_interrupt(&mut self, vector: u64) -> Outcome<()> {
        self.inside(|vcpu| access::inject_interrupt(vcpu, vector))
    }

    /// The part of the original's `run` before the exit: it is left, by unwinding, at the first read of
    /// the exit reason.
    pub fn enter(&mut self, host_stack: u64) -> Outcome<Entered> {
        let waiting = self.events().len();
        let launch = Rc::new(Cell::new(false));
        let seen = launch.clone();
        self.machine.host_stack = host_stack;
        let result = self.inside(|vcpu| {
            access::run(
                vcpu,
                Box::new(move |_, launch| {
                    seen.set(launch);
                    machine::with(|m| m.stop_at_exit_reason = true);
                }),
            )
        });
        match result {
            Err(Failure::Entered) => Ok(self.entered(launch.get(), waiting)),
            Err(failure) => Err(failure),
            Ok(_) => unreachable!("the run went on after the entry"),
        }
    }

    /// The part of the original's `run` from the exit on. The part before it does nothing, since the
    /// queue is empty and the launched flag set; both are put back before the report is stored.
    pub fn exit(&mut self, report: &Report) -> Outcome<Answer> {
        let events = std::mem::take(access::events_mut(self.vcpu_mut()));
        let launched = access::launched(self.vcpu());
        let clear = self.exit_clears_entry_valid;
        access::set_launched(self.vcpu_mut(), true);
        let report = report.clone();
        self.machine.apic_call = None;
        let result = self.inside(|vcpu| {
            access::run(
                vcpu,
                Box::new(move |vcpu, _| {
                    *access::events_mut(vcpu) = events;
                    access::set_launched(vcpu, launched);
                    report.load(vcpu, clear);
                }),
            )
        });
        self.answer(result)
    }

    /// An exit as document 01's session takes it: a refused report changes nothing, and the unused place of the register file is
    /// stored like the others (docs/DIFFERENCES.md, register slot 4).
    pub fn take_report(&mut self, report: &Report) -> Outcome<Answer> {
        let answer = self.attempt(|oracle| oracle.exit(report))?;
        if !report.failed() {
            self.store_register(4, report.registers[4]);
        }
        Ok(answer)
    }

    /// Entry and exit in one call of the original's `run`.
    pub fn run(&mut self, host_stack: u64, report: &Report) -> (Option<Entered>, Outcome<Answer>) {
        let waiting = self.events().len();
        let launch = Rc::new(Cell::new(None));
        let seen = launch.clone();
        let clear = self.exit_clears_entry_valid;
        let report = report.clone();
        self.machine.host_stack = host_stack;
        self.machine.apic_call = None;
        let result = self.inside(|vcpu| {
            access::run(
                vcpu,
                Box::new(move |vcpu, launch| {
                    seen.set(Some(launch));
                    report.load(vcpu, clear);
                }),
            )
        });
        let entered = launch.get().map(|launch| self.entered(launch, waiting));
        (entered, self.answer(result))
    }

    fn entered(&self, launch: bool, waiting_before: usize) -> Entered {
        let event = match (waiting_before, self.events().len()) {
            (0, _) => EntryEvent::None,
            (before, after) if after < before => EntryEvent::Written,
            _ => EntryEvent::Held,
        };
        Entered { launch, event }
    }

    fn answer(&self, result: Outcome<access::AxVCpuExitReason>) -> Outcome<Answer> {
        match (result, self.machine.apic_call) {
            (Err(Failure::ApicValueWanted), Some(ApicCall::Read { msr })) => Ok(Answer::ApicRead { msr }),
            (Ok(_), Some(ApicCall::Write { msr, value })) => Ok(Answer::ApicWrite { msr, value }),
            (Ok(reason), None) => Ok(Answer::of(reason)),
            (Err(failure), _) => Err(failure),
            (Ok(_), Some(ApicCall::Read { .. })) => unreachable!("the run went on after an APIC read"),
        }
    }

    /// The value that an APIC read waits for, by the original's `write_edx_eax`.
    pub fn apic_value(&mut self, value: u64) {
        access::write_edx_eax(self.vcpu_mut(), value)
    }

    pub fn get_register(&mut self, index: u8) -> Outcome<u64> {
        self.inside(|vcpu| Ok(access::get_register(vcpu, index)))
    }

    pub fn set_register(&mut self, index: u8, value: u64) -> Outcome<()> {
        self.inside(|vcpu| {
            access::set_register(vcpu, index, value);
            Ok(())
        })
    }

    /// Any place of the register file, the unused one too.
    pub fn store_register(&mut self, index: usize, value: u64) {
        access::registers_mut(self.vcpu_mut())[index] = value;
    }

    /// The capability words that reports are judged by, as setup's arguments have them.
    pub fn store_capabilities(&mut self, capabilities: &Capabilities) {
        capabilities.load(&mut self.machine)
    }

    pub fn set_gpr(&mut self, index: u64, value: u64) -> Outcome<()> {
        self.inside(|vcpu| {
            access::set_gpr(vcpu, index, value);
            Ok(())
        })
    }

    pub fn registers(&self) -> [u64; 16] {
        *access::registers(self.vcpu())
    }

    pub fn guest_xcr0(&self) -> u64 {
        access::guest_xcr0(self.vcpu())
    }

    pub fn launched(&self) -> bool {
        access::launched(self.vcpu())
    }

    pub fn events(&self) -> Vec<Event> {
        access::events(self.vcpu()).iter().copied().collect()
    }

    /// A field by the original's accessor; refused where no enum lists the encoding.
    pub fn read_field(&mut self, encoding: u32) -> Result<u64, u32> {
        guarded(&mut self.machine, || fields::read(encoding).transpose())
            .expect("the machine has every field")
            .ok_or(NO_SUCH_FIELD)
    }

    /// A field by the original's accessor. Refused is what its types shut out: an encoding that no enum
    /// lists, one whose enum has no `write`, and a number that the parameter of `write` can't hold.
    pub fn write_field(&mut self, encoding: u32, value: u64) -> Result<(), u32> {
        let mut refused = None;
        guarded(&mut self.machine, || match fields::write(encoding, value) {
            Write::Done(result) => result,
            other => {
                refused = Some(match other {
                    Write::NoField => NO_SUCH_FIELD,
                    Write::ReadOnly => READ_ONLY_FIELD,
                    _ => TOO_WIDE_FOR_FIELD,
                });
                Ok(())
            }
        })
        .expect("the machine has every field");
        refused.map_or(Ok(()), Err)
    }

    /// Any field, as the processor stores it.
    pub fn store_field(&mut self, encoding: u32, value: u64) {
        self.machine.set_field(encoding, value)
    }

    pub fn set_io_intercept_of_range(&mut self, port: u32, count: u32, intercept: bool) -> Outcome<()> {
        self.inside(|vcpu| {
            vcpu.set_io_intercept_of_range(port, count, intercept);
            Ok(())
        })
    }

    pub fn set_read_intercept(&mut self, msr: u32, intercept: bool) -> Outcome<()> {
        self.inside(|vcpu| {
            access::set_read_intercept(vcpu, msr, intercept);
            Ok(())
        })
    }

    pub fn set_write_intercept(&mut self, msr: u32, intercept: bool) -> Outcome<()> {
        self.inside(|vcpu| {
            access::set_write_intercept(vcpu, msr, intercept);
            Ok(())
        })
    }

    /// Reads and writes of one MSR.
    pub fn set_msr_intercept_of_range(&mut self, msr: u32, intercept: bool) -> Outcome<()> {
        self.inside(|vcpu| {
            vcpu.set_msr_intercept_of_range(msr, intercept);
            Ok(())
        })
    }

    /// I/O A, I/O B and MSR.
    pub fn frames(&self) -> [&[u8; FRAME_BYTES]; 3] {
        [FRAME_IO_A, FRAME_IO_B, FRAME_MSR].map(|n| unsafe { &*(self.machine.frames[n] as *const [u8; FRAME_BYTES]) })
    }

    pub fn frames_mut(&mut self) -> [&mut [u8; FRAME_BYTES]; 3] {
        [FRAME_IO_A, FRAME_IO_B, FRAME_MSR].map(|n| unsafe { &mut *(self.machine.frames[n] as *mut [u8; FRAME_BYTES]) })
    }

    /// 0 real, 1 protected, 2 compatibility, 3 64-bit.
    pub fn cpu_mode(&mut self, host_efer: u64) -> u8 {
        self.machine.set_msr(words::MSR_EFER, host_efer);
        self.inside(|vcpu| Ok(access::cpu_mode(vcpu))).expect("the CPU mode")
    }

    pub fn page_walk(&mut self) -> PageWalk {
        self.inside(|vcpu| Ok(access::page_walk(vcpu))).expect("the page-walk reading")
    }

    pub fn gla2gva(&mut self, host_efer: u64, address: u64) -> Outcome<u64> {
        self.machine.set_msr(words::MSR_EFER, host_efer);
        self.inside(|vcpu| Ok(access::gla2gva(vcpu, address)))
    }

    /// The original's `inject_event` alone.
    pub fn inject_event(&mut self, vector: u8, code: Option<u32>) -> Outcome<()> {
        self.inside(|_| access::inject_event(vector, code))
    }

    /// The original's `update_efer` alone, with this pair for the entry word.
    pub fn update_efer(&mut self, allowed0: u32, allowed1: u32) -> Outcome<()> {
        self.machine.set_msr(words::MSR_TRUE_ENTRY, words::pair(allowed0, allowed1));
        self.inside(|_| access::update_efer())
    }

    /// The original's `set_cr` alone, for CR0 or CR4, with these fixed bits.
    pub fn set_cr(&mut self, cr: u8, value: u64, fixed0: u64, fixed1: u64) -> Outcome<()> {
        let [msr0, msr1] = if cr == 0 { words::MSR_CR0_FIXED } else { words::MSR_CR4_FIXED };
        self.machine.set_msr(msr0, fixed0);
        self.machine.set_msr(msr1, fixed1);
        self.inside(|vcpu| {
            access::set_cr(vcpu, cr as usize, value);
            Ok(())
        })
    }

    pub fn save(&self) -> Saved {
        Saved {
            machine: self.machine.clone(),
            registers: self.registers(),
            launched: self.launched(),
            events: self.events(),
            frames: self.frames().map(|frame| *frame),
        }
    }

    pub fn restore(&mut self, saved: &Saved) {
        self.machine.clone_from(&saved.machine);
        self.restore_vcpu(saved.registers, saved.launched, &saved.events, &saved.frames);
    }

    /// All that is not in the machine's arrays.
    fn restore_vcpu(
        &mut self,
        registers: [u64; 16],
        launched: bool,
        events: &[Event],
        frames: &[[u8; FRAME_BYTES]; 3],
    ) {
        *access::registers_mut(self.vcpu_mut()) = registers;
        access::set_launched(self.vcpu_mut(), launched);
        *access::events_mut(self.vcpu_mut()) = events.iter().copied().collect();
        for (frame, bytes) in self.frames_mut().into_iter().zip(frames) {
            *frame = *bytes;
        }
    }

    pub fn machine(&self) -> &Machine {
        &self.machine
    }
}
