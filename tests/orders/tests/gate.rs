//! The gate: the drill against the plain ledger. A missing drill fails it.

use std::time::Duration;

use orders::compare::{describe, shortest_failing};
use orders::frame::Frame;
use orders::mistake::{self, Mistake};
use orders::program::Program;
use orders::rng::Rng;
use orders::rounds::{self, Tally};
use orders::{drill, honest, postings, record};

const HONEST_SEED: u64 = 3;
const HONEST_RUNS: usize = 1200;
const HOSTILE_SEED: u64 = 11;
const HOSTILE_RUNS: usize = 1000;
const DAMAGED_SEED: u64 = 16;
const DAMAGED_INPUTS: usize = 400;

fn the_drill() -> Program {
    Program::drill().unwrap_or_else(|problem| panic!("{problem}"))
}

/// Makes a round and panics with its report if the drill differs.
macro_rules! make_round {
    ($round:path, $seed:expr, $runs:expr) => {{
        let program = the_drill();
        let mut tally = Tally::default();
        println!("seed {}, {} runs", $seed, $runs);
        let result = $round(&|input: &[u8]| program.output(input), $seed, $runs, &mut tally);
        result.unwrap_or_else(|report| panic!("{report}"));
        println!("{tally:?}");
        tally
    }};
}

fn drill_prints(input: &[u8], wanted: &str) {
    let output = the_drill().output(input).unwrap_or_else(|problem| panic!("{problem}"));
    assert_eq!(String::from_utf8_lossy(&output), wanted, "for {input:02x?}");
    assert_eq!(String::from_utf8_lossy(&drill::output(input)), wanted, "reference: {input:02x?}");
}

fn case_l() -> Vec<u8> {
    let steps = [
        (1, Frame::multicast(7, 3)),
        (2, Frame::multicast(9, 3)),
        (1, Frame::multicast(9, 3)),
        (2, Frame::multicast(7, 3)),
        (1, Frame::propose(7, 3, 2, 2)),
        (1, Frame::propose(9, 3, 2, 1)),
        (2, Frame::propose(9, 3, 1, 2)),
        (2, Frame::propose(7, 3, 1, 1)),
    ];
    let mut input = record::group(2);
    input.extend(steps.iter().flat_map(|(target, frame)| record::step(*target, frame)));
    input
}

#[test]
fn honest_runs_agree_and_post_in_one_order() {
    let tally = make_round!(rounds::honest, HONEST_SEED, HONEST_RUNS);
    assert_eq!(tally.runs, HONEST_RUNS);
    let refused: usize = (1..12).filter(|answer| *answer != 9).map(|a| tally.answers[a]).sum();
    assert_eq!(refused, 0, "an honest run answers only 0 and 9");
    assert!(tally.answers[9] > 0, "some copies are repeated");
}

#[test]
fn hostile_records_agree_and_every_answer_is_met() {
    let tally = make_round!(rounds::hostile, HOSTILE_SEED, HOSTILE_RUNS);
    assert_eq!(tally.answers_not_met(), Vec::<u8>::new());
    assert_eq!(tally.answers[1..=3], [0, 0, 0], "1 to 3 are out of a drill's reach");
}

#[test]
fn damaged_input_agrees() {
    let tally = make_round!(rounds::damaged, DAMAGED_SEED, DAMAGED_INPUTS);
    assert!(tally.stops > DAMAGED_INPUTS / 2, "most damage stops the run");
    assert!(tally.stops < DAMAGED_INPUTS, "some damage leaves whole records");
}

#[test]
fn case_l_prints_the_text_of_the_document() {
    let wanted = "GROUP 2\nL1 A0\nL2 A0\nL1 A0\nL2 A0\nL1 A0\nL1 A0 P9 P7\nL2 A0 P9\nL2 A0 P7\n\
                  END 8\n";
    drill_prints(&case_l(), wanted);
}

#[test]
fn empty_input_and_set_ups_alone_end_with_no_steps() {
    drill_prints(&[], "END 0\n");
    drill_prints(&[16, 1, 16, 8], "GROUP 1\nGROUP 8\nEND 0\n");
}

#[test]
fn every_cause_of_stop_stops_at_its_record() {
    let multicast = record::step(1, &Frame::multicast(7, 3));
    let propose = record::step(1, &Frame::propose(7, 3, 2, 5));
    let good = [record::group(2), multicast.clone()].concat();
    // What follows the bad record must not be read as records.
    let stops_after_good = |bad: &[u8]| {
        let input = [&good, bad, &record::group(2)].concat();
        drill_prints(&input, "GROUP 2\nL1 A0\nSTOP 9\n");
    };
    for kind in [0, 1, 2, 15, 19, 255] {
        stops_after_good(&[kind]);
        drill_prints(&[kind], "STOP 0\n");
    }
    for ledgers in [0, 9, 255] {
        stops_after_good(&[16, ledgers]);
        drill_prints(&[16, ledgers], "STOP 0\n");
    }
    for target in [0, 3, 8, 255] {
        stops_after_good(&record::step(target, &Frame::multicast(9, 3)));
        stops_after_good(&record::step(target, &Frame::propose(9, 3, 2, 5)));
    }
    drill_prints(&multicast, "STOP 0\n");
    drill_prints(&propose, "STOP 0\n");
    for whole in [record::group(2), multicast, propose] {
        for length in 1..whole.len() {
            let cut = [&good, &whole[..length]].concat();
            drill_prints(&cut, "GROUP 2\nL1 A0\nSTOP 9\n");
        }
    }
}

#[test]
fn input_may_come_in_any_pieces() {
    let program = the_drill();
    let input = [case_l(), record::group(3), vec![19]].concat();
    let wanted = drill::output(&input);
    let bytes = input.iter().map(|byte| vec![*byte]).collect();
    let pause = Duration::from_millis(2);
    assert_eq!(program.output_in_pieces(bytes, pause), Ok(wanted.clone()), "byte by byte");
    let mut rng = Rng::new(17);
    for _ in 0..10 {
        let mut pieces = Vec::new();
        let mut rest = input.as_slice();
        while !rest.is_empty() {
            let (piece, after) = rest.split_at(rng.between(1, rest.len().min(25)));
            pieces.push(piece.to_vec());
            rest = after;
        }
        assert_eq!(program.output_in_pieces(pieces, pause), Ok(wanted.clone()));
    }
}

/// The first honest or hostile run of the gate's seeds on which a ledger with
/// this mistake prints something else than the right one.
fn first_run_noticed(mistake: Mistake) -> Option<Vec<u8>> {
    let honest = (0..HONEST_RUNS).map(|run| rounds::honest_run(HONEST_SEED, run).1);
    let hostile = (0..HOSTILE_RUNS).map(|run| rounds::hostile_run(HOSTILE_SEED, run));
    honest
        .chain(hostile)
        .find(|input| drill::output_with(Some(mistake), input) != drill::output(input))
}

#[test]
fn a_wrong_ledger_is_caught() {
    for mistake in mistake::ALL {
        let input = first_run_noticed(mistake).unwrap_or_else(|| panic!("{mistake:?} is missed"));
        let wrong = |input: &[u8]| Ok(drill::output_with(Some(mistake), input));
        let shortest = shortest_failing(&wrong, &input);
        assert_ne!(wrong(&shortest), Ok(drill::output(&shortest)), "{mistake:?}");
        let last = record::pieces(&shortest).pop().map_or(0, |piece| piece.len());
        let shorter = &shortest[..shortest.len() - last];
        assert_eq!(wrong(shorter), Ok(drill::output(shorter)), "{mistake:?}");
    }
}

#[test]
fn the_check_of_postings_alone_catches_each_mistake_that_breaks_demand_3() {
    for mistake in mistake::ALL {
        let caught = (0..HONEST_RUNS).any(|run| {
            let mut rng = Rng::for_run(HONEST_SEED, run);
            let plan = honest::random_plan(&mut rng);
            let input = honest::run_with(Some(mistake), &mut rng, &plan);
            let output = drill::output_with(Some(mistake), &input);
            let output = String::from_utf8_lossy(&output);
            postings::check(&plan, &postings::runs(&output)[0]).is_err()
        });
        assert_eq!(caught, mistake.breaks_demand_3(), "{mistake:?}");
    }
}

#[test]
fn a_difference_is_described_by_its_records_and_first_line() {
    let wrong = |input: &[u8]| Ok(drill::output_with(Some(Mistake::ComparesTimesOnly), input));
    let description = describe(&wrong, &case_l());
    assert!(description.starts_with("  10 02\n  11 01 00 00 00 07 03\n"), "{description}");
    let line = "line 7: wanted \"L1 A0 P9 P7\\n\", got \"L1 A0 P7 P9\\n\"\n";
    assert!(description.ends_with(line), "{description}");
}
