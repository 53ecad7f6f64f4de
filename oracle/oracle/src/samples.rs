//! A usual setup and report, to be changed in one point.

use crate::{Call, Capabilities, Oracle, Outcome, Report, Setup, refusal_number};

/// The value, or the number of document 01 that the failure stands for.
pub fn show<T: std::fmt::Debug>(call: Call, outcome: Outcome<T>) -> String {
    match outcome {
        Ok(value) => format!("{value:x?}"),
        Err(failure) => match refusal_number(call, &failure) {
            Some(number) => format!("refused {number}"),
            None => format!("{failure:?}"),
        },
    }
}

/// Capabilities of a usual processor: every flexible bit allowed.
pub fn usual_setup() -> Setup {
    let pair = |allowed0: u64| 0xFFFF_FFFF << 32 | allowed0;
    Setup {
        entry: 0x8000,
        ept_root: 0x1FFF,
        frames: [0xA000, 0xB000, 0xC000],
        vmx_basic: 0x00DA_0400_0000_0004,
        capabilities: Capabilities {
            pairs: [pair(0x16), pair(0x0400_6172), pair(0), pair(0x36DFB), pair(0x11FB)],
            plain: [pair(0x16), pair(0x0401_E172), pair(0x36DFF), pair(0x11FF)],
            cr0_fixed0: 0x8000_0021,
            cr0_fixed1: 0xFFFF_FFFF,
            cr4_fixed0: 0x2000,
            cr4_fixed1: 0x3F_FFFF,
        },
        xcr0_supported: 7,
        ..Setup::default()
    }
}

/// Capability words of the kind that processors report, with these secondary controls and these bits of CR4.
fn processor(secondary: u64, cr4_fixed1: u64) -> Capabilities {
    let (exit, entry) = (0x01FF_FFFF_0003_6DFB, 0x0003_FFFF_0000_11FB);
    Capabilities {
        pairs: [0x7F_0000_0016, 0xFFF9_FFFE_0400_6172, secondary << 32, exit, entry],
        plain: [0x7F_0000_0016, 0xFFF9_FFFE_0401_E172, exit | 4, entry | 4],
        cr0_fixed0: 0x8000_0021,
        cr0_fixed1: 0xFFFF_FFFF,
        cr4_fixed0: 0x2000,
        cr4_fixed1,
    }
}

/// With few secondary controls, with many, with some; and one that fixes every bit that setup does not need open.
pub fn processors() -> [Capabilities; 4] {
    let strict = Capabilities {
        pairs: [0x1F_0000_001F, 0x9600_6172_9600_6172, 0x10_108A_0000_0082, 0x3F_EFFF_003F_EFFF, 0xD1FF_0000_D1FF],
        ..processor(0x10_108A, 0x2000)
    };
    [processor(0xAA, 0x27FF), processor(0x5F_BCFF, 0x37_67FF), processor(0x10_1FEA, 0x17_67FF), strict]
}

pub fn ready() -> Oracle {
    let mut oracle = Oracle::new();
    oracle.setup(&usual_setup()).expect("setup");
    oracle
}

/// A report that leaves the control registers as the session has them.
pub fn report(oracle: &mut Oracle, reason: u32) -> Report {
    Report {
        reason,
        rip: 0x1000,
        rflags: 2,
        cr0: oracle.read_field(0x6800).unwrap(),
        cr4: oracle.read_field(0x6804).unwrap(),
        instruction_length: 2,
        ..Report::default()
    }
}

/// An entry, then this exit.
pub fn exit(oracle: &mut Oracle, report: &Report) -> String {
    oracle.enter(0x7000).expect("entry");
    let result = oracle.exit(report);
    show(Call::Exit(report.reason), result)
}
