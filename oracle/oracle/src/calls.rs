//! Sequences of document 01's calls on one session, for comparisons: each call with its arguments, what the
//! original answers, and a generator that stays where document 01 says that the Rust decides.

use crate::generate::Random;
use crate::*;

/// The Rust's queue grows; document 01's holds 64 events.
pub const QUEUE_ROOM: usize = 64;

#[derive(Clone, Debug, PartialEq, Eq)]
pub enum SessionCall {
    Setup(Box<Setup>),
    QueueEvent { vector: u8, code: Option<u32> },
    InjectInterrupt { vector: u64 },
    Entry { host_stack: u64 },
    ExitReport(Box<Report>),
    ApicValue { value: u64 },
    WriteField { encoding: u32, value: u64 },
    SetRegister { index: u8, value: u64 },
    PortEdit { port: u32, count: u32, intercept: bool },
    MsrEdit { msr: u32, write: bool, intercept: bool },
    CpuMode { host_efer: u64 },
    PageWalkInfo,
    Gla2gva { host_efer: u64, address: u64 },
}

#[derive(Clone, Debug, PartialEq, Eq)]
pub enum SessionAnswer {
    Done,
    Entered(Entered),
    Exit(Answer),
    Number(u64),
    Walk(PageWalk),
}

impl SessionCall {
    /// The original's answer, or document 01's number of the refusal; a refused call changes nothing.
    pub fn perform(&self, oracle: &mut Oracle) -> Result<SessionAnswer, u32> {
        let done = |()| SessionAnswer::Done;
        let numbered = |call: Call| {
            move |failure: Failure| {
                refusal_number(call, &failure).unwrap_or_else(|| panic!("{call:?}: no number for {failure:?}"))
            }
        };
        match self {
            Self::Setup(args) => oracle.attempt(|o| o.setup(args)).map(done).map_err(numbered(Call::Setup)),
            Self::QueueEvent { vector, code } => {
                oracle.queue_event(*vector, *code);
                Ok(SessionAnswer::Done)
            }
            Self::InjectInterrupt { vector } => {
                oracle.attempt(|o| o.inject_interrupt(*vector)).map(done).map_err(numbered(Call::InjectInterrupt))
            }
            Self::Entry { host_stack } => Ok(SessionAnswer::Entered(oracle.enter(*host_stack).expect("entry"))),
            Self::ExitReport(report) => {
                oracle.attempt(|o| o.exit(report)).map(SessionAnswer::Exit).map_err(numbered(Call::Exit(report.reason)))
            }
            Self::ApicValue { value } => {
                oracle.apic_value(*value);
                Ok(SessionAnswer::Done)
            }
            Self::WriteField { encoding, value } => oracle.write_field(*encoding, *value).map(done),
            Self::SetRegister { index, value } => {
                oracle.attempt(|o| o.set_register(*index, *value)).map(done).map_err(numbered(Call::Register))
            }
            Self::PortEdit { port, count, intercept } => oracle
                .attempt(|o| o.set_io_intercept_of_range(*port, *count, *intercept))
                .map(done)
                .map_err(numbered(Call::PortEdit)),
            Self::MsrEdit { msr, write, intercept } => oracle
                .attempt(|o| match write {
                    false => o.set_read_intercept(*msr, *intercept),
                    true => o.set_write_intercept(*msr, *intercept),
                })
                .map(done)
                .map_err(numbered(Call::MsrEdit)),
            Self::CpuMode { host_efer } => Ok(SessionAnswer::Number(oracle.cpu_mode(*host_efer) as u64)),
            Self::PageWalkInfo => Ok(SessionAnswer::Walk(oracle.page_walk())),
            Self::Gla2gva { host_efer, address } => {
                oracle.gla2gva(*host_efer, *address).map(SessionAnswer::Number).map_err(numbered(Call::Gla2gva))
            }
        }
    }
}

/// Document 01's phases, which the Rust does not have.
#[derive(Clone, Copy, Debug, PartialEq, Eq)]
pub enum Phase {
    Fresh,
    Ready,
    Running,
    Waiting,
    Ended,
}

/// A session under random calls.
pub struct Sequence {
    pub oracle: Oracle,
    pub phase: Phase,
}

impl Default for Sequence {
    fn default() -> Self {
        Sequence { oracle: Oracle::new(), phase: Phase::Fresh }
    }
}

impl Sequence {
    /// A call that the phase allows.
    pub fn next_call(&mut self, random: &mut Random) -> SessionCall {
        match self.phase {
            Phase::Fresh => return SessionCall::Setup(Box::new(random.setup())),
            Phase::Waiting => return SessionCall::ApicValue { value: random.word() },
            _ => (),
        }
        let room = self.oracle.events().len() < QUEUE_ROOM;
        match random.below(20) {
            0..5 if room => {
                let (vector, code) = random.event();
                SessionCall::QueueEvent { vector, code }
            }
            5 if room => SessionCall::InjectInterrupt { vector: random.interrupt() },
            6 => SessionCall::SetRegister { index: random.below(18) as u8, value: random.word() },
            7 => self.write_field(random),
            8 => {
                let (port, count) = random.ports();
                SessionCall::PortEdit { port, count, intercept: random.chance(60) }
            }
            9 => SessionCall::MsrEdit { msr: random.msr(), write: random.chance(50), intercept: random.chance(60) },
            10 => match random.below(3) {
                0 => SessionCall::CpuMode { host_efer: random.word() },
                1 => SessionCall::PageWalkInfo,
                _ => SessionCall::Gla2gva { host_efer: random.word(), address: random.word() },
            },
            _ if self.phase == Phase::Running => SessionCall::ExitReport(Box::new(random.report(&mut self.oracle))),
            _ => SessionCall::Entry { host_stack: random.word() },
        }
    }

    /// A write of a field of document 01's table, now and then too wide or read-only. The control registers
    /// and their masks are left alone, so that the mask test (15) passes.
    fn write_field(&self, random: &mut Random) -> SessionCall {
        loop {
            let (encoding, _) = random.pick(&FIELDS[FIELDS_BEFORE_TABLE..]);
            if !matches!(encoding, 0x6000 | 0x6002 | 0x6800 | 0x6804) {
                let cut = if random.chance(90) { 64 - field_bits(encoding) } else { 0 };
                return SessionCall::WriteField { encoding, value: random.word() >> cut };
            }
        }
    }

    pub fn perform(&mut self, call: &SessionCall) -> Result<SessionAnswer, u32> {
        let answer = call.perform(&mut self.oracle);
        if let Ok(answer) = &answer {
            self.phase = match (call, answer) {
                (SessionCall::Setup(_), _) | (SessionCall::ApicValue { .. }, _) => Phase::Ready,
                (SessionCall::Entry { .. }, _) => Phase::Running,
                (_, SessionAnswer::Exit(Answer::ApicRead { .. })) => Phase::Waiting,
                (_, SessionAnswer::Exit(Answer::FailEntry)) => Phase::Ended,
                (_, SessionAnswer::Exit(_)) => Phase::Ready,
                _ => self.phase,
            };
        }
        answer
    }

    /// Whether the sequence is over: setup was refused, or an entry failed.
    pub fn over(&self) -> bool {
        matches!(self.phase, Phase::Fresh | Phase::Ended)
    }
}
