//! Calls the functions of the port's archive and the original on the same inputs, and compares every result
//! and every byte that was or was not written.
//!
//!   differential [CASES] [SEED]
//!
//! It prints a line for each function, and ends with the totals. Exit status: 0 if nothing differs, 1 if
//! something does, or the archive lacks a function that is to be compared or has one that is not.

mod archive;
mod buffer;
mod calls;
mod choose;
mod control;
mod events;
mod intercepts;
mod kept;
mod page_walk;
mod paging;
mod report;
mod session;
mod setup;
mod tally;
mod trap_sheet;
mod trials;
mod whole;
mod xsetbv;

use oracle::generate::Random;
use std::process::ExitCode;
use tally::Totals;
use trials::Trials;

/// The functions of the archive, and the comparison that is about them.
struct Comparison {
    names: &'static [&'static str],
    run: fn(&mut Random, u64, &mut Totals),
}

const COMPARISONS: [Comparison; 15] = [
    Comparison { names: &["vcpu_set_control"], run: control::run },
    Comparison { names: &["vcpu_set_io_intercept_of_range"], run: intercepts::run_ports },
    Comparison { names: &["vcpu_set_read_intercept"], run: intercepts::run_reads },
    Comparison { names: &["vcpu_set_write_intercept"], run: intercepts::run_writes },
    Comparison { names: &["vcpu_set_msr_intercept_of_range"], run: intercepts::run_both },
    Comparison { names: &["vcpu_new"], run: session::run_new },
    Comparison { names: &calls::NAMES, run: session::run },
    Comparison { names: &["vcpu_setup"], run: setup::run },
    Comparison { names: &["vcpu_exit_report"], run: report::run },
    Comparison { names: &[], run: xsetbv::run },
    Comparison { names: &[], run: whole::run },
    Comparison { names: &[], run: kept::run },
    Comparison { names: &["vcpu_trap_sheet"], run: trap_sheet::run },
    Comparison { names: &["vcpu_page_walk"], run: page_walk::run },
    Comparison { names: &trials::NAMES, run: trials::run },
];

/// The names that the archive lacks.
fn missing(comparison: &Comparison) -> Vec<&'static str> {
    let lacks = |name: &&'static str| archive::exported().all(|exported| exported != *name);
    comparison.names.iter().copied().filter(lacks).collect()
}

fn main() -> ExitCode {
    let arguments: Vec<u64> = std::env::args().skip(1).map(|a| a.parse().expect("a number")).collect();
    let cases = arguments.first().copied().unwrap_or(20_000);
    let seed = arguments.get(1).copied().unwrap_or(1);
    println!("differential: {cases} cases for each function, seed {seed}");
    let random = |i: usize| Random::new(seed.wrapping_add((i as u64) << 32), true);
    let mut totals = Totals::new(Trials::new(random(COMPARISONS.len())));
    let lacking: Vec<&str> = COMPARISONS.iter().flat_map(missing).collect();
    if !lacking.is_empty() {
        lacking.iter().for_each(|name| println!("{name}: NOT IN THE ARCHIVE"));
        return ExitCode::from(1);
    }
    for (i, comparison) in COMPARISONS.iter().enumerate() {
        (comparison.run)(&mut random(i), cases, &mut totals);
    }
    let compared = |name: &str| COMPARISONS.iter().any(|comparison| comparison.names.contains(&name));
    let alone: Vec<&str> = archive::exported().filter(|name| !compared(name)).collect();
    alone.iter().for_each(|name| println!("{name}: NO COMPARISON"));
    println!("total: {} compared, {} differ", totals.compared, totals.different);
    ExitCode::from((totals.different > 0 || !alone.is_empty()) as u8)
}
