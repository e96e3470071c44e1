//! The workload of docs/BENCH.md over a store of one's choice.

mod draw;
mod meter;
mod rounds;
mod run;
mod special;

use std::io::{self, Write};

use crate::fields::Fields;
use crate::kind::Kind;
use crate::pruning::PruningStore;
use crate::store::{Sizes, Store};
use crate::tallies::Tallies;
use crate::words;

use draw::Draw;
use rounds::Mix;
use run::Run;

const USAGE: &str = "usage: bench RECORDS VERSIONS ROUNDS SEED PHASE.. [time]";
const PHASES: [&str; 8] = ["mixed", "whole", "back", "contend", "fill", "near", "far", "old"];
const MOST_ROUNDS: u64 = 1_000_000;

struct Plan {
    sizes: Sizes,
    rounds: u64,
    seed: u64,
    phases: Vec<String>,
    timing: bool,
}

impl Plan {
    fn read(arguments: &[String]) -> Option<Plan> {
        let (numbers, mut phases) = arguments.split_at_checked(4)?;
        let mut number = numbers.iter().map(|word| words::number(word.as_bytes()));
        let mut next = || number.next().flatten();
        let (records, versions, rounds, seed) = (next()?, next()?, next()?, next()?);
        let timing = phases.last().is_some_and(|word| word == "time");
        if timing {
            phases = &phases[..phases.len() - 1];
        }
        let known = phases.iter().all(|phase| PHASES.contains(&phase.as_str()));
        if phases.is_empty() || !known || rounds > MOST_ROUNDS {
            return None;
        }
        let sizes = Sizes::check(records, versions, 0).ok()?;
        Some(Plan { sizes, rounds, seed, phases: phases.to_vec(), timing })
    }
}

fn one_run<K: Draw, S: Store<K>>(plan: &Plan, phase: &str, out: &mut impl Write) -> io::Result<()> {
    let mut run = Run::<K, S>::new(plan.sizes, plan.seed, plan.timing);
    match phase {
        "near" | "far" => run.reads(phase == "near", plan.rounds),
        "old" => run.old(plan.rounds),
        _ => run.rounds(&Mix::new(phase, run.records), plan.rounds),
    }
    writeln!(out, "{phase} {}", K::NAME)?;
    run.meter.print(out, S::KNOWS_TIMES)?;
    if plan.timing {
        run.meter.print_times(out)?;
        let (record, version) = S::entry_bytes();
        writeln!(out, "bytes record {record} version {version}")?;
    }
    Ok(())
}

pub fn bench_pruning(arguments: &[String], out: &mut impl Write) -> io::Result<()> {
    let Some(plan) = Plan::read(arguments) else { return writeln!(out, "{USAGE}") };
    for phase in &plan.phases {
        if phase == "contend" {
            one_run::<Fields, PruningStore<Fields, 8>>(&plan, phase, out)?;
            one_run::<Tallies, PruningStore<Tallies, 8>>(&plan, phase, out)?;
        } else {
            one_run::<Fields, PruningStore<Fields, 32>>(&plan, phase, out)?;
            one_run::<Tallies, PruningStore<Tallies, 32>>(&plan, phase, out)?;
        }
    }
    Ok(())
}
