//! Steps per second of the plain ledger and of the drill, on the same records:
//! several hundred full days (32 payments to 8 ledgers, every copy once, in a
//! shuffled order).
//!
//! The drill is run as a process, so its figure includes starting it, reading
//! the records and printing the lines. The plain ledger's steps alone are
//! measured in this process; but like is to be compared with like, so the
//! plain side is also run as a process, through the reference drill over the
//! same input. The ratio is of those two processes. All make the full
//! soundness check at every step.
//!
//! Usage: `bench [--days D] [--repeats R]`, after `cargo build --release`.

use std::time::{Duration, Instant};

use orders::drill::fresh_group;
use orders::frame::PROPOSE_LENGTH;
use orders::honest::full_day;
use orders::ledger::{Ledger, MOST_PAYMENTS};
use orders::program::Program;
use orders::record;
use orders::rng::Rng;

const SEED: u64 = 32;

fn main() {
    if let Err(problem) = measure() {
        eprintln!("bench: {problem}");
        std::process::exit(1);
    }
}

fn measure() -> Result<(), String> {
    let (days, repeats) = options(std::env::args().skip(1).collect())?;
    let drill = patient(Program::drill()?);
    let reference = patient(beside_this_program("reference")?);
    let mut rng = Rng::new(SEED);
    let input: Vec<u8> = (0..days).flat_map(|_| full_day(&mut rng).1).collect();
    let steps = record::pieces(&input).len() - days;
    println!("seed {SEED}, {days} full days, {steps} steps, {repeats} repeats");
    let (mut in_process, mut as_reference, mut as_drill) = (Vec::new(), Vec::new(), Vec::new());
    // Taking turns spreads a slow moment of the machine over all three.
    let began = Instant::now();
    for repeat in 1..=repeats {
        println!("repeat {repeat} of {repeats} ({} s so far)", began.elapsed().as_secs());
        in_process.push(steps as f64 / step_all(&input).as_secs_f64());
        let (wanted, time) = timed(&reference, &input)?;
        as_reference.push(steps as f64 / time.as_secs_f64());
        let (got, time) = timed(&drill, &input)?;
        as_drill.push(steps as f64 / time.as_secs_f64());
        if wanted != got {
            return Err("the drill printed something else than the reference".to_string());
        }
    }
    let _ = report("plain ledger, steps alone", in_process);
    let plain = report("plain ledger, reference drill as a process", as_reference);
    let proved = report("drill as a process", as_drill);
    println!(
        "bench: the drill makes {:.3} of the plain ledger's steps in the same time",
        proved / plain
    );
    Ok(())
}

fn options(words: Vec<String>) -> Result<(usize, usize), String> {
    let (mut days, mut repeats) = (300, 5);
    for pair in words.chunks(2) {
        let value = pair.get(1).and_then(|word| word.parse().ok()).filter(|value| *value > 0);
        match (pair[0].as_str(), value) {
            ("--days", Some(value)) => days = value,
            ("--repeats", Some(value)) => repeats = value,
            _ => return Err("usage: bench [--days D] [--repeats R]".to_string()),
        }
    }
    Ok((days, repeats))
}

fn patient(program: Program) -> Program {
    let limit = Duration::from_secs(900);
    Program { limit, ..program }
}

fn beside_this_program(name: &str) -> Result<Program, String> {
    let own = std::env::current_exe().map_err(|problem| problem.to_string())?;
    Program::at(own.with_file_name(name))
        .map_err(|problem| format!("{problem}: run cargo build --release first"))
}

fn timed(program: &Program, input: &[u8]) -> Result<(Vec<u8>, Duration), String> {
    let start = Instant::now();
    let output = program.output(input)?;
    Ok((output, start.elapsed()))
}

/// The time of all steps, without reading records or printing lines.
fn step_all(input: &[u8]) -> Duration {
    let frames: Vec<(&[u8], Vec<u8>)> = record::pieces(input)
        .into_iter()
        .map(|piece| match piece[0] {
            record::GROUP => (piece, Vec::new()),
            _ => (piece, record::frame_inside(piece)),
        })
        .collect();
    let mut group: Vec<Ledger> = Vec::new();
    let (mut outgoing, mut list) = ([0; PROPOSE_LENGTH], [0; MOST_PAYMENTS]);
    let mut postings = 0;
    let start = Instant::now();
    for (piece, frame) in &frames {
        if piece[0] == record::GROUP {
            group = fresh_group(piece[1]);
        } else {
            let ledger = &mut group[usize::from(piece[1]) - 1];
            postings += ledger.step(frame, &mut outgoing, &mut list).postings;
        }
    }
    let time = start.elapsed();
    assert!(postings > 0, "full days post payments");
    time
}

/// Prints the median and the spread; hands back the median.
fn report(name: &str, mut figures: Vec<f64>) -> f64 {
    figures.sort_by(f64::total_cmp);
    let median = figures[figures.len() / 2];
    let (least, most) = (figures[0], figures[figures.len() - 1]);
    println!("{name}: {median:.0} steps a second, from {least:.0} to {most:.0}");
    median
}
