//! Damaged and cut input. Each is a run of its own, since a STOP ends it.

use crate::honest::{self, random_plan};
use crate::hostile;
use crate::record;
use crate::rng::Rng;

/// How an input is damaged.
#[derive(Clone, Copy, PartialEq, Eq, Debug)]
pub enum Damage {
    CutAnywhere,
    UnknownKind,
    BadNumberOfLedgers,
    BadTarget,
    NoSetUp,
    FlippedBytes,
    LostByte,
    ExtraByte,
    AnyBytes,
    NothingAtAll,
}

pub const ALL: [Damage; 10] = [
    Damage::CutAnywhere,
    Damage::UnknownKind,
    Damage::BadNumberOfLedgers,
    Damage::BadTarget,
    Damage::NoSetUp,
    Damage::FlippedBytes,
    Damage::LostByte,
    Damage::ExtraByte,
    Damage::AnyBytes,
    Damage::NothingAtAll,
];

/// The damaged input with this number: the kinds of damage take turns.
pub fn input(rng: &mut Rng, number: usize) -> Vec<u8> {
    let good = good_input(rng, number / ALL.len());
    spoil(rng, ALL[number % ALL.len()], good)
}

/// An honest and a hostile run, in either order.
fn good_input(rng: &mut Rng, number: usize) -> Vec<u8> {
    let mut plan = random_plan(rng);
    plan.payments.truncate(6);
    let honest = honest::run(rng, &plan);
    let hostile = hostile::run(rng, number);
    match rng.one_in(2) {
        true => [honest, hostile].concat(),
        false => [hostile, honest].concat(),
    }
}

fn spoil(rng: &mut Rng, damage: Damage, mut input: Vec<u8>) -> Vec<u8> {
    let anywhere = rng.below(input.len());
    let any_byte = rng.bits() as u8;
    match damage {
        Damage::CutAnywhere => input.truncate(anywhere),
        Damage::UnknownKind => {
            let kind = rng.pick(&[0, 1, 2, 15, 19, 128, 255]);
            set_in_some_record(rng, &mut input, 0, kind);
        }
        Damage::BadNumberOfLedgers => {
            let bad = record::group(rng.pick(&[0, 9, 16, 255]));
            let at = start_of_some_record(rng, &input);
            input.splice(at..at, bad);
        }
        Damage::BadTarget => {
            let target = rng.pick(&[0, 4, 8, 9, 255]);
            set_in_some_record(rng, &mut input, 1, target);
        }
        Damage::NoSetUp => drop(input.drain(..record::group(1).len())),
        Damage::FlippedBytes => {
            for _ in 0..rng.between(1, 3) {
                let at = rng.below(input.len());
                input[at] ^= 1 << rng.below(8);
            }
        }
        Damage::LostByte => drop(input.remove(anywhere)),
        Damage::ExtraByte => input.insert(anywhere, any_byte),
        Damage::AnyBytes => {
            input = (0..rng.below(40)).map(|_| rng.bits() as u8).collect();
        }
        Damage::NothingAtAll => input.clear(),
    }
    input
}

fn start_of_some_record(rng: &mut Rng, input: &[u8]) -> usize {
    let pieces = record::pieces(input);
    let before = rng.below(pieces.len());
    pieces[..before].iter().map(|piece| piece.len()).sum()
}

fn set_in_some_record(rng: &mut Rng, input: &mut [u8], place: usize, value: u8) {
    let start = start_of_some_record(rng, input);
    input[start + place] = value;
}
