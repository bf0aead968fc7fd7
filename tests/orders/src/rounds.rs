//! The three rounds: many runs of one sort, fed to the drill and compared.

use crate::compare::{compare, keep, Runner};
use crate::damaged;
use crate::honest::{self, Plan};
use crate::hostile;
use crate::postings;
use crate::rng::Rng;

/// Runs joined in one input. A STOP ends an input, but a set-up only starts
/// afresh, so runs without damage share a process.
const JOINED: usize = 100;

/// The answers a drill can give; see `hostile` for why not 1 to 3.
pub const ANSWERS_WITHIN_REACH: [u8; 9] = [0, 4, 5, 6, 7, 8, 9, 10, 11];

/// What was met, counted in the drill's own output.
#[derive(Clone, Debug, Default)]
pub struct Tally {
    pub runs: usize,
    pub records: usize,
    pub answers: [usize; 12],
    pub stops: usize,
}

impl Tally {
    fn count(&mut self, runs: usize, output: &str) {
        self.runs += runs;
        for line in output.lines() {
            match postings::step_line(line) {
                Some(step) => self.answers[usize::from(step.answer)] += 1,
                None if line.starts_with("STOP ") => self.stops += 1,
                None => {}
            }
            // The last line of an output belongs to no record taken.
            self.records += usize::from(!line.starts_with("END ") && !line.starts_with("STOP "));
        }
    }

    pub fn answers_not_met(&self) -> Vec<u8> {
        let met = |answer: &u8| self.answers[usize::from(*answer)] > 0;
        ANSWERS_WITHIN_REACH.into_iter().filter(|answer| !met(answer)).collect()
    }
}

/// Honest runs; each is also judged by the drill's output alone. Every 50th
/// is a full day.
pub fn honest(drill: &Runner, seed: u64, runs: usize, tally: &mut Tally) -> Result<(), String> {
    for first in (0..runs).step_by(JOINED) {
        let last = runs.min(first + JOINED);
        let (plans, inputs): (Vec<Plan>, Vec<Vec<u8>>) =
            (first..last).map(|run| honest_run(seed, run)).unzip();
        let name = format!("honest-seed-{seed}-runs-{first}-to-{}", last - 1);
        let output = compare(drill, &name, &inputs.concat())?;
        let by_run = postings::runs(&output);
        if by_run.len() != plans.len() {
            return Err(format!("{name}: {} runs in the output", by_run.len()));
        }
        for (index, (plan, lines)) in plans.iter().zip(&by_run).enumerate() {
            postings::check(plan, lines).map_err(|problem| {
                let run = first + index;
                let file = keep(&format!("honest-seed-{seed}-run-{run}.input"), &inputs[index]);
                format!("honest run {run} of seed {seed} ({file}): {problem}")
            })?;
        }
        tally.count(plans.len(), &output);
    }
    Ok(())
}

/// The honest run with this number.
pub fn honest_run(seed: u64, run: usize) -> (Plan, Vec<u8>) {
    let mut rng = Rng::for_run(seed, run);
    if run % 50 == 49 {
        return honest::full_day(&mut rng);
    }
    let plan = honest::random_plan(&mut rng);
    let records = honest::run(&mut rng, &plan);
    (plan, records)
}

pub fn hostile(drill: &Runner, seed: u64, runs: usize, tally: &mut Tally) -> Result<(), String> {
    for first in (0..runs).step_by(JOINED) {
        let last = runs.min(first + JOINED);
        let input: Vec<u8> = (first..last).flat_map(|run| hostile_run(seed, run)).collect();
        let name = format!("hostile-seed-{seed}-runs-{first}-to-{}", last - 1);
        let output = compare(drill, &name, &input)?;
        tally.count(last - first, &output);
    }
    Ok(())
}

/// The hostile run with this number.
pub fn hostile_run(seed: u64, run: usize) -> Vec<u8> {
    hostile::run(&mut Rng::for_run(seed, run), run)
}

pub fn damaged(drill: &Runner, seed: u64, inputs: usize, tally: &mut Tally) -> Result<(), String> {
    for number in 0..inputs {
        let input = damaged::input(&mut Rng::for_run(seed, number), number);
        let name = format!("damaged-seed-{seed}-input-{number}");
        let output = compare(drill, &name, &input)?;
        tally.count(1, &output);
    }
    Ok(())
}
