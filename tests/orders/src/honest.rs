//! Honest runs: the run of demand 3. The drill routes nothing, so the plain
//! ledgers are stepped here to learn which proposals are written; the records
//! are the order in which copies were handed in.

use crate::drill::fresh_group;
use crate::frame::{self, Frame, PROPOSE_LENGTH};
use crate::ledger::{bit, Ledger, MOST_LEDGERS, MOST_PAYMENTS};
use crate::mistake::Mistake;
use crate::record;
use crate::rng::Rng;

#[derive(Clone, Copy, Debug)]
pub struct Payment {
    pub number: u32,
    pub destinations: u8,
}

/// What was put in.
#[derive(Clone, Debug)]
pub struct Plan {
    pub ledgers: u8,
    pub payments: Vec<Payment>,
}

/// How the next copy is chosen among those not yet handed in.
#[derive(Clone, Copy, Debug)]
enum Manner {
    Anyhow,
    MostlyOldest,
    MostlyNewest,
    ProposalsFirst,
    OneLedgerLate(u8),
}

/// A frame on its way to one ledger.
#[derive(Clone, Copy, Debug)]
struct Letter {
    target: u8,
    frame: Frame,
}

/// A plan of 1 to 8 ledgers and up to 32 payments. Every 16th is full.
pub fn random_plan(rng: &mut Rng) -> Plan {
    let ledgers = rng.between(1, usize::from(MOST_LEDGERS)) as u8;
    let count = match rng.below(16) {
        0 => MOST_PAYMENTS,
        1..=7 => rng.between(1, MOST_PAYMENTS),
        _ => rng.between(2, 8),
    };
    let all = all_of(ledgers);
    let wide = rng.one_in(3);
    let payments = different_numbers(rng, count)
        .into_iter()
        .map(|number| {
            let some = rng.between(1, usize::from(all)) as u8;
            Payment { number, destinations: if wide { all } else { some } }
        })
        .collect();
    Plan { ledgers, payments }
}

pub fn all_of(ledgers: u8) -> u8 {
    (1..=ledgers).map(bit).sum()
}

/// Different numbers, not 0: small ones, ones that only differ in one byte,
/// or any at all.
fn different_numbers(rng: &mut Rng, count: usize) -> Vec<u32> {
    let style = rng.below(3);
    let shift = 8 * rng.below(4);
    let mut numbers = Vec::new();
    while numbers.len() < count {
        let number = match style {
            0 => rng.between(1, 99) as u32,
            1 => (rng.between(1, 255) as u32) << shift,
            _ => rng.bits() as u32,
        };
        if number != 0 && !numbers.contains(&number) {
            numbers.push(number);
        }
    }
    numbers
}

/// One honest run of a plan, as records that begin with its set-up.
pub fn run(rng: &mut Rng, plan: &Plan) -> Vec<u8> {
    run_with(None, rng, plan)
}

/// The same among ledgers that make a mistake or none.
pub fn run_with(mistake: Option<Mistake>, rng: &mut Rng, plan: &Plan) -> Vec<u8> {
    let manner = match rng.below(6) {
        0 => Manner::MostlyOldest,
        1 => Manner::MostlyNewest,
        2 => Manner::ProposalsFirst,
        3 => Manner::OneLedgerLate(rng.between(1, usize::from(plan.ledgers)) as u8),
        _ => Manner::Anyhow,
    };
    let repeats = rng.pick(&[0, 10, 25, 50]);
    hand_in(mistake, rng, plan, manner, repeats)
}

/// 8 ledgers and 32 payments to all of them, every copy handed in once, in a
/// shuffled order: 32 * 8 MULTICAST and 32 * 8 * 7 PROPOSE.
pub fn full_day(rng: &mut Rng) -> (Plan, Vec<u8>) {
    let payments = different_numbers(rng, MOST_PAYMENTS)
        .into_iter()
        .map(|number| Payment { number, destinations: all_of(MOST_LEDGERS) })
        .collect();
    let plan = Plan { ledgers: MOST_LEDGERS, payments };
    let records = hand_in(None, rng, &plan, Manner::Anyhow, 0);
    (plan, records)
}

/// Hands in copies until each was handed in at least once. `repeats` is the
/// share of hand-ins, in percent, that repeat an earlier one.
fn hand_in(
    mistake: Option<Mistake>,
    rng: &mut Rng,
    plan: &Plan,
    manner: Manner,
    repeats: usize,
) -> Vec<u8> {
    let mut group = fresh_group(plan.ledgers);
    let mut waiting = desk_letters(rng, plan);
    let mut handed_in: Vec<Letter> = Vec::new();
    let mut records = record::group(plan.ledgers);
    while !waiting.is_empty() {
        let letter = if !handed_in.is_empty() && rng.percent(repeats) {
            rng.pick(&handed_in)
        } else {
            let next = choose(rng, manner, &waiting);
            handed_in.push(waiting.remove(next));
            handed_in[handed_in.len() - 1]
        };
        records.extend(record::step(letter.target, &letter.frame));
        let ledger = &mut group[usize::from(letter.target) - 1];
        waiting.extend(letters_written(mistake, ledger, &letter.frame));
    }
    records
}

/// One MULTICAST for every destination of every payment.
fn desk_letters(rng: &mut Rng, plan: &Plan) -> Vec<Letter> {
    let mut letters = Vec::new();
    for payment in &plan.payments {
        let frame = Frame::multicast(payment.number, payment.destinations);
        letters.extend(letters_to(payment.destinations, frame));
    }
    rng.shuffle(&mut letters);
    letters
}

fn letters_to(recipients: u8, frame: Frame) -> Vec<Letter> {
    (1..=MOST_LEDGERS)
        .filter(|ledger| recipients & bit(*ledger) != 0)
        .map(|target| Letter { target, frame })
        .collect()
}

/// Steps the ledger and routes what it wrote.
fn letters_written(mistake: Option<Mistake>, ledger: &mut Ledger, frame: &Frame) -> Vec<Letter> {
    let mut outgoing = [0; PROPOSE_LENGTH];
    let mut list = [0; MOST_PAYMENTS];
    let outcome = ledger.step_with(mistake, &frame.bytes(), &mut outgoing, &mut list);
    if outcome.recipients == 0 {
        return Vec::new();
    }
    let written = frame::read(&outgoing).expect("the ledger writes whole frames");
    letters_to(outcome.recipients, written)
}

fn choose(rng: &mut Rng, manner: Manner, waiting: &[Letter]) -> usize {
    let any = rng.below(waiting.len());
    let wanted = |letter: &Letter| match manner {
        Manner::ProposalsFirst => letter.frame.proposal.is_some(),
        Manner::OneLedgerLate(late) => letter.target != late,
        _ => true,
    };
    match manner {
        // Now and then the other way, so that no manner is a strict rule.
        _ if rng.one_in(8) => any,
        Manner::MostlyOldest => 0,
        Manner::MostlyNewest => waiting.len() - 1,
        _ => (0..waiting.len())
            .map(|step| (any + step) % waiting.len())
            .find(|index| wanted(&waiting[*index]))
            .unwrap_or(any),
    }
}
