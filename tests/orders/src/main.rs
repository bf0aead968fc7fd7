//! Runs random orders by hand: `orders --seed S --runs R` makes R honest runs,
//! R hostile runs and a tenth as many damaged inputs.

use std::process::ExitCode;
use std::time::Instant;

use orders::compare::Runner;
use orders::program::Program;
use orders::rounds::{self, Tally};

type Round = fn(&Runner, u64, usize, &mut Tally) -> Result<(), String>;

fn main() -> ExitCode {
    let options = options(std::env::args().skip(1).collect());
    let ready = options.and_then(|options| Ok((options, Program::drill()?)));
    match ready {
        Ok(((seed, runs), program)) => run(&program, seed, runs),
        Err(problem) => {
            eprintln!("orders: {problem}");
            ExitCode::FAILURE
        }
    }
}

fn options(words: Vec<String>) -> Result<(u64, usize), String> {
    let (mut seed, mut runs) = (1, 1000);
    for pair in words.chunks(2) {
        let usage = "usage: orders [--seed S] [--runs R]".to_string();
        let value = pair.get(1).and_then(|word| word.parse::<u64>().ok());
        match (pair[0].as_str(), value) {
            ("--seed", Some(value)) => seed = value,
            ("--runs", Some(value)) => runs = value as usize,
            _ => return Err(usage),
        }
    }
    Ok((seed, runs))
}

/// A round ends at its first difference; the others are still made.
fn run(program: &Program, seed: u64, runs: usize) -> ExitCode {
    println!("drill {}", program.path.display());
    println!("seed {seed}");
    let began = Instant::now();
    let drill = |input: &[u8]| program.output(input);
    let mut tally = Tally::default();
    let mut differences = 0;
    let rounds: [(&str, Round, usize); 3] = [
        ("honest", rounds::honest, runs),
        ("hostile", rounds::hostile, runs),
        ("damaged", rounds::damaged, runs.div_ceil(10)),
    ];
    for (number, (name, round, count)) in rounds.into_iter().enumerate() {
        println!("round {} of 3: {count} {name} runs ({} s so far)", number + 1, seconds(began));
        if let Err(report) = round(&drill, seed, count, &mut tally) {
            println!("{report}");
            differences += 1;
        }
    }
    for (answer, count) in tally.answers.iter().enumerate() {
        println!("answer {answer}: {count}");
    }
    println!("inputs stopped: {}", tally.stops);
    let not_met = tally.answers_not_met();
    if !not_met.is_empty() {
        println!("answers not met, so more runs are wanted: {not_met:?}");
    }
    let (runs, records) = (tally.runs, tally.records);
    println!(
        "orders: {runs} runs, {records} records, {differences} differences, in {} s",
        seconds(began)
    );
    match differences == 0 && not_met.is_empty() {
        true => ExitCode::SUCCESS,
        false => ExitCode::FAILURE,
    }
}

fn seconds(began: Instant) -> u64 {
    began.elapsed().as_secs()
}
