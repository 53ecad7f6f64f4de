//! Random call sequences on the original: setup, queue, entry and exit with reports of all reasons,
//! edits, field and register writes, readings. Every refused call is undone.
//!
//!   self_check [SEQUENCES] [SEED]
//!
//! The oracle takes `run` as an entry and an exit apart; each pair is also done as one call of the
//! original's `run`, and both ways must agree. It ends with status 1 where they don't, or where the
//! original fails for a reason that document 01 has no number for, other than those of `EXPECTED`.

use oracle::generate::Random;
use oracle::*;
use std::collections::BTreeMap;
use std::process::ExitCode;

/// The GDT of a TR selector of index 8191 has no second half of the descriptor.
const EXPECTED: &str = "index out of bounds: the len is 8192 but the index is 8192";

#[derive(Default)]
struct Tally {
    calls: u64,
    exits: u64,
    answers: BTreeMap<&'static str, u64>,
    refusals: BTreeMap<String, u64>,
    /// Failures that no number of document 01 stands for.
    unnumbered: BTreeMap<String, u64>,
    disagreements: u64,
}

impl Tally {
    fn refused(&mut self, call: Call, failure: &Failure) {
        let kind = match call {
            Call::Exit(_) => "Exit".to_string(),
            call => format!("{call:?}"),
        };
        match refusal_number(call, failure) {
            Some(number) => *self.refusals.entry(format!("{kind} {number}")).or_default() += 1,
            None => *self.unnumbered.entry(format!("{kind} {failure:?}")).or_default() += 1,
        }
    }

    fn attempt<T>(&mut self, oracle: &mut Oracle, call: Call, f: impl FnOnce(&mut Oracle) -> Outcome<T>) -> bool {
        self.calls += 1;
        oracle.attempt(f).inspect_err(|failure| self.refused(call, failure)).is_ok()
    }
}

fn sequence(random: &mut Random, tally: &mut Tally) {
    let mut oracle = Oracle::new();
    let setup = random.setup();
    if !tally.attempt(&mut oracle, Call::Setup, |oracle| oracle.setup(&setup)) {
        return;
    }
    for _ in 0..random.below(40) {
        match random.below(20) {
            0..5 => {
                let (vector, code) = random.event();
                oracle.queue_event(vector, code);
            }
            5 => {
                let vector = random.interrupt();
                tally.attempt(&mut oracle, Call::InjectInterrupt, |oracle| oracle.inject_interrupt(vector));
            }
            6 => {
                let (index, value) = (random.below(18) as u8, random.word());
                tally.attempt(&mut oracle, Call::Register, |oracle| oracle.set_register(index, value));
            }
            7 => {
                let (encoding, _) = random.pick(&FIELDS);
                let _ = oracle.write_field(encoding, random.word());
            }
            8 => {
                let ((port, count), on) = (random.ports(), random.chance(50));
                tally.attempt(&mut oracle, Call::PortEdit, |oracle| oracle.set_io_intercept_of_range(port, count, on));
            }
            9 => {
                let (msr, on) = (random.msr(), random.chance(50));
                tally.attempt(&mut oracle, Call::MsrEdit, |oracle| oracle.set_msr_intercept_of_range(msr, on));
            }
            10 => {
                let (efer, address) = (random.word(), random.word());
                oracle.cpu_mode(efer);
                oracle.page_walk();
                tally.attempt(&mut oracle, Call::Gla2gva, |oracle| oracle.gla2gva(efer, address));
            }
            _ => cycle(random, &mut oracle, tally),
        }
    }
}

/// One entry and one exit; a refused report is followed by another.
fn cycle(random: &mut Random, oracle: &mut Oracle, tally: &mut Tally) {
    let host_stack = random.word();
    let start = oracle.save();
    let entered = oracle.enter(host_stack).expect("entry");
    for _ in 0..4 {
        tally.exits += 1;
        let report = random.report(oracle);
        let running = oracle.save();
        let result = oracle.exit(&report);
        let (state, done) = (oracle.state(), oracle.save());
        oracle.restore(&start);
        let (together, answer) = oracle.run(host_stack, &report);
        if together != Some(entered) || answer != result || oracle.state() != state {
            tally.disagreements += 1;
            println!("{entered:?} {together:?}\n{result:?}\n{answer:?}\n{:?}", state.differences(&oracle.state()));
        }
        oracle.restore(&done);
        match result {
            Ok(answer) => {
                *tally.answers.entry(answer.name()).or_default() += 1;
                if let Answer::ApicRead { .. } = answer {
                    oracle.apic_value(random.word());
                }
                return;
            }
            Err(failure) => {
                tally.refused(Call::Exit(report.reason), &failure);
                oracle.restore(&running);
            }
        }
    }
}

fn main() -> ExitCode {
    let arguments: Vec<u64> = std::env::args().skip(1).map(|a| a.parse().expect("a number")).collect();
    let sequences = arguments.first().copied().unwrap_or(2000);
    let mut random = Random::new(arguments.get(1).copied().unwrap_or(1), false);
    let mut tally = Tally::default();
    for _ in 0..sequences {
        sequence(&mut random, &mut tally);
    }
    println!("answers {:?}", tally.answers);
    println!("refusals {:?}", tally.refusals);
    let unexpected: Vec<_> = tally.unnumbered.iter().filter(|(text, _)| !text.contains(EXPECTED)).collect();
    for (text, count) in unexpected.iter().take(20) {
        println!("    {count} {}", text.chars().take(300).collect::<String>());
    }
    println!(
        "self_check: {sequences} sequences, {} exits as one call of run and apart, {} disagree, {} failures without a number",
        tally.exits,
        tally.disagreements,
        unexpected.len()
    );
    ExitCode::from((tally.disagreements > 0 || !unexpected.is_empty()) as u8)
}
