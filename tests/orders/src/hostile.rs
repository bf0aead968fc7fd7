//! Hostile records: fields from small pools, good and bad, so that they meet
//! and contradict each other. Targets stay good, since a bad one ends the run.
//!
//! Answers 1, 2 and 3 cannot be met through the drill: its states come from
//! set-up, its buffers are long enough, and its records carry a frame of a
//! known kind and the right length. All others are met here.

use crate::frame::{Frame, Proposal};
use crate::honest::all_of;
use crate::ledger::{bit, LAST_TIME, MOST_LEDGERS};
use crate::record;
use crate::rng::Rng;

/// What a run's fields are drawn from.
struct Pools {
    ledgers: u8,
    /// The ledgers that are stepped.
    targets: Vec<u8>,
    /// The payments and the destinations each mostly goes to.
    payments: Vec<(u32, u8)>,
    times: Vec<u16>,
    steps: usize,
}

/// One hostile run, as records that begin with its set-up. The number of the
/// run decides its sort, so that every sort has its turn.
pub fn run(rng: &mut Rng, number: usize) -> Vec<u8> {
    let pools = match number % 5 {
        0 | 1 => small(rng),
        2 => crowded(rng),
        3 => late(rng),
        _ => crowded_and_late(rng),
    };
    let mut records = record::group(pools.ledgers);
    let mut earlier: Vec<(u8, Frame)> = Vec::new();
    for _ in 0..pools.steps {
        let (target, frame) = if !earlier.is_empty() && rng.one_in(4) {
            let (target, frame) = rng.pick(&earlier);
            changed(rng, &pools, target, frame)
        } else {
            fresh(rng, &pools)
        };
        earlier.push((target, frame));
        records.extend(record::step(target, &frame));
    }
    records
}

/// Few payments and times: contradictions, ties and held-back payments.
fn small(rng: &mut Rng) -> Pools {
    let ledgers = rng.pick(&[1, 2, 2, 3, 3, 4, 5, 6, 7, MOST_LEDGERS]);
    let payments = rng.between(2, 8);
    Pools {
        ledgers,
        targets: (1..=ledgers).collect(),
        payments: payments_to(rng, ledgers, payments),
        times: (1..=rng.between(4, 12) as u16).collect(),
        steps: rng.between(20, 40 + 20 * usize::from(ledgers)),
    }
}

/// More payments than one ledger can hold: answer 10.
fn crowded(rng: &mut Rng) -> Pools {
    let ledgers = rng.between(1, 3) as u8;
    Pools {
        ledgers,
        targets: vec![rng.between(1, usize::from(ledgers)) as u8],
        payments: payments_to(rng, ledgers, 44),
        times: (1..=300).collect(),
        steps: rng.between(120, 200),
    }
}

/// Times near the last: a stamp lifts the clock to it, and answer 11 follows.
fn late(rng: &mut Rng) -> Pools {
    let ledgers = rng.between(2, 4) as u8;
    let earliest = LAST_TIME - rng.between(0, 12) as u16;
    Pools {
        ledgers,
        targets: (1..=ledgers).collect(),
        payments: payments_to(rng, ledgers, 14),
        times: (earliest..=LAST_TIME).collect(),
        steps: rng.between(30, 120),
    }
}

/// Both, so that answers 8 to 11 are due at once and their order shows.
fn crowded_and_late(rng: &mut Rng) -> Pools {
    let mut pools = crowded(rng);
    pools.times.extend(LAST_TIME - 3..=LAST_TIME);
    pools.times.extend([LAST_TIME; 20]);
    pools.steps += 60;
    pools
}

/// Numbers that differ in one byte of the four, now this one and now that.
fn payments_to(rng: &mut Rng, ledgers: u8, count: usize) -> Vec<(u32, u8)> {
    let all = all_of(ledgers);
    let unit: u32 = rng.pick(&[1, 1, 0x100, 0x1_0000, 0x100_0000]);
    (1..=count)
        .map(|number| {
            let some = rng.between(1, usize::from(all)) as u8;
            let destinations = if rng.one_in(2) { all } else { some };
            (number as u32 * unit, destinations)
        })
        .collect()
}

/// A new record: mostly lawful, each field bad now and then.
fn fresh(rng: &mut Rng, pools: &Pools) -> (u8, Frame) {
    let (payment, mut destinations) = rng.pick(&pools.payments);
    let target = if rng.one_in(8) {
        rng.pick(&pools.targets)
    } else {
        target_among(rng, pools, destinations)
    };
    if rng.one_in(16) {
        destinations = odd_destinations(rng, pools);
    }
    let mut frame = Frame::multicast(payment, destinations);
    if rng.one_in(40) {
        frame.payment = 0;
    }
    // A payment to the target alone has no lawful proposal.
    let alone = destinations & !bit(target) == 0;
    if rng.percent(if alone { 10 } else { 60 }) {
        frame.proposal = Some(proposal(rng, pools, target, destinations));
    }
    (target, frame)
}

/// An earlier record once more, with one field drawn anew or none.
fn changed(rng: &mut Rng, pools: &Pools, target: u8, mut frame: Frame) -> (u8, Frame) {
    let anew = proposal(rng, pools, target, frame.destinations);
    match rng.below(6) {
        0 => return (rng.pick(&pools.targets), frame),
        1 => frame.payment = rng.pick(&pools.payments).0,
        2 => frame.destinations = odd_destinations(rng, pools),
        3 => frame.proposal = frame.proposal.map(|old| Proposal { time: anew.time, ..old }),
        4 => frame.proposal = frame.proposal.map(|old| Proposal { source: anew.source, ..old }),
        _ => {}
    }
    (target, frame)
}

fn target_among(rng: &mut Rng, pools: &Pools, destinations: u8) -> u8 {
    let lawful = |target: &&u8| destinations & bit(**target) != 0;
    let targets: Vec<u8> = pools.targets.iter().filter(lawful).copied().collect();
    if targets.is_empty() {
        return rng.pick(&pools.targets);
    }
    rng.pick(&targets)
}

fn proposal(rng: &mut Rng, pools: &Pools, target: u8, destinations: u8) -> Proposal {
    let others: Vec<u8> = (1..=pools.ledgers)
        .filter(|ledger| *ledger != target && destinations & bit(*ledger) != 0)
        .collect();
    let source = if others.is_empty() || rng.one_in(16) {
        rng.pick(&[0, 1, target, pools.ledgers, pools.ledgers + 1, 8, 9, 16, 255])
    } else {
        rng.pick(&others)
    };
    let time = if rng.one_in(16) {
        rng.pick(&[0, 1, LAST_TIME - 1, LAST_TIME, LAST_TIME + 1, u16::MAX])
    } else {
        rng.pick(&pools.times)
    };
    Proposal { source, time }
}

/// Empty, beyond N, all, or any at all.
fn odd_destinations(rng: &mut Rng, pools: &Pools) -> u8 {
    let all = all_of(pools.ledgers);
    let any = rng.bits() as u8;
    rng.pick(&[0, all, !all, all.wrapping_add(1), any, any & all, any & all])
}
