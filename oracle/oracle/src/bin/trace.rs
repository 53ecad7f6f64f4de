//! A list of calls with the original's answers, in the domain where document 01 says that the Rust
//! decides. It can be replayed without the Rust.
//!
//!   trace [SEQUENCES] [SEED]
//!
//! A sequence starts with the line `new`. A line of a name and hexadecimal numbers is a call; `=`
//! gives its answer or `refused N`; `~` lines give what it changed: `f` encoding value, `r` index
//! value, `q` all waiting events (vector:code or vector:-), `a`, `b`, `m` byte value (the frames).
//! A refused call changes nothing.

use oracle::calls::{Sequence, SessionAnswer, SessionCall};
use oracle::generate::Random;
use oracle::*;
use std::fmt::Write;

fn words(name: &str, numbers: &[u64]) -> String {
    numbers.iter().fold(name.to_string(), |text, number| format!("{text} {number:x}"))
}

fn setup_line(s: &Setup) -> String {
    let h = &s.host;
    let c = &s.capabilities;
    let segments = [h.es, h.cs, h.ss, h.ds, h.fs, h.gs].map(u64::from);
    let mut numbers = vec![h.pat, h.efer, h.cr0, h.cr3, h.cr4];
    numbers.extend(segments);
    numbers.extend([h.fs_base, h.gs_base, h.tr as u64, h.tr_base, h.gdtr_base, h.idtr_base, h.rip]);
    numbers.extend([s.entry, s.ept_root]);
    numbers.extend(s.frames);
    numbers.extend(c.pairs);
    numbers.extend(c.plain);
    numbers.extend([c.cr0_fixed0, c.cr0_fixed1, c.cr4_fixed0, c.cr4_fixed1]);
    numbers.extend([s.guest_pat, s.xcr0_supported, s.rdtscp as u64, s.invpcid as u64, s.xsaves as u64]);
    words("setup", &numbers)
}

fn report_line(r: &Report) -> String {
    let mut numbers = r.registers.to_vec();
    numbers.extend([r.rip, r.rsp, r.rflags, r.interruptibility as u64, r.cr0, r.cr3, r.cr4, r.efer, r.cs_base]);
    numbers.extend([r.cs_rights, r.ss_rights, r.reason].map(u64::from));
    numbers.push(r.qualification);
    numbers.extend([r.instruction_length, r.interruption_info, r.interruption_error_code].map(u64::from));
    numbers.extend(r.cpuid.map(u64::from));
    words("report", &numbers)
}

fn event_text((vector, code): Event, mark: &str) -> String {
    code.map_or(format!("{vector:x}{mark}-"), |code| format!("{vector:x}{mark}{code:x}"))
}

fn call_line(call: &SessionCall) -> String {
    match *call {
        SessionCall::Setup(ref args) => setup_line(args),
        SessionCall::QueueEvent { vector, code } => format!("queue {}", event_text((vector, code), " ")),
        SessionCall::InjectInterrupt { vector } => words("inject", &[vector]),
        SessionCall::Entry { host_stack } => words("enter", &[host_stack]),
        SessionCall::ExitReport(ref report) => report_line(report),
        SessionCall::ApicValue { value } => words("apic", &[value]),
        SessionCall::WriteField { encoding, value } => words("write", &[encoding as u64, value]),
        SessionCall::SetRegister { index, value } => words("setreg", &[index as u64, value]),
        SessionCall::PortEdit { port, count, intercept } => {
            words("port", &[port as u64, count as u64, intercept as u64])
        }
        SessionCall::MsrEdit { msr, write, intercept } => words("msr", &[msr as u64, write as u64, intercept as u64]),
        SessionCall::CpuMode { host_efer } => words("mode", &[host_efer]),
        SessionCall::PageWalkInfo => "walk".to_string(),
        SessionCall::Gla2gva { host_efer, address } => words("gla2gva", &[host_efer, address]),
    }
}

fn answer_line(answer: &SessionAnswer) -> String {
    match answer {
        SessionAnswer::Done => "ok".to_string(),
        SessionAnswer::Entered(Entered { launch, event }) => {
            let kind = if *launch { "launch" } else { "resume" };
            format!("{kind} {}", format!("{event:?}").to_lowercase())
        }
        SessionAnswer::Exit(answer) => answer.line(),
        SessionAnswer::Number(number) => format!("{number:x}"),
        SessionAnswer::Walk(w) => {
            let flags = [
                w.is_user_mode_access,
                w.is_write_access,
                w.is_inst_fetch,
                w.pse,
                w.wp,
                w.nxe,
                w.is_smap_on,
                w.is_smep_on,
            ];
            let numbers = [w.top_entry, w.level, w.width as u64].into_iter().chain(flags.map(u64::from));
            words("walk", &numbers.collect::<Vec<_>>())
        }
    }
}

fn changes(text: &mut String, old: &State, new: &State) {
    for (i, (encoding, _)) in FIELDS.iter().enumerate() {
        if old.fields[i] != new.fields[i] {
            writeln!(text, "~ f {encoding:x} {:x}", new.fields[i]).unwrap();
        }
    }
    for i in 0..16 {
        if old.registers[i] != new.registers[i] {
            writeln!(text, "~ r {i:x} {:x}", new.registers[i]).unwrap();
        }
    }
    if old.events != new.events {
        let events = new.events.iter().map(|&event| format!(" {}", event_text(event, ":")));
        writeln!(text, "~ q{}", events.collect::<String>()).unwrap();
    }
    for (name, (old, new)) in ["a", "b", "m"].iter().zip(old.frames.iter().zip(&new.frames)) {
        for i in (0..FRAME_BYTES).filter(|&i| old[i] != new[i]) {
            writeln!(text, "~ {name} {i:x} {:x}", new[i]).unwrap();
        }
    }
}

fn main() {
    let arguments: Vec<u64> = std::env::args().skip(1).map(|a| a.parse().expect("a number")).collect();
    let sequences = arguments.first().copied().unwrap_or(100);
    let mut random = Random::new(arguments.get(1).copied().unwrap_or(1), true);
    for _ in 0..sequences {
        let mut text = "new\n".to_string();
        let mut sequence = Sequence::default();
        let mut state = sequence.oracle.state();
        for _ in 0..1 + random.below(60) {
            let call = sequence.next_call(&mut random);
            writeln!(text, "{}", call_line(&call)).unwrap();
            match sequence.perform(&call) {
                Ok(answer) => writeln!(text, "= {}", answer_line(&answer)).unwrap(),
                Err(number) => writeln!(text, "= refused {number}").unwrap(),
            }
            let after = sequence.oracle.state();
            changes(&mut text, &state, &after);
            state = after;
            if sequence.over() {
                break;
            }
        }
        print!("{text}");
    }
}
