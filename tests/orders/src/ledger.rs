//! The plain ledger: the rules taken down one by one, with no thought of
//! proof. It is what the drill's output is compared with.
//!
//! `refusals` judges a frame, `sound` a state.
//!
//! A stamp is not kept: it is always the greatest of the proposals kept for
//! its payment, so the proposals say it.

use crate::frame::{Frame, PROPOSE_LENGTH};
use crate::mistake::Mistake;

pub const MOST_LEDGERS: u8 = 8;
pub const MOST_PAYMENTS: usize = 32;
pub const LAST_TIME: u16 = 60_000;

/// The bit of a ledger in a byte of destinations. `ledger` is 1 to 8.
pub fn bit(ledger: u8) -> u8 {
    1 << (ledger - 1)
}

#[derive(Clone, Copy, PartialEq, Eq, Debug, Default)]
pub enum Phase {
    #[default]
    Waiting,
    Proposed,
    Stamped,
    Posted,
}

/// The order of the fields is the order of stamps: time, then ledger.
#[derive(Clone, Copy, PartialEq, Eq, PartialOrd, Ord, Debug)]
pub struct Stamp {
    pub time: u16,
    pub ledger: u8,
}

/// A place for one payment; an unused one is all zero.
#[derive(Clone, Copy, PartialEq, Eq, Debug, Default)]
pub struct Place {
    pub payment: u32,
    pub destinations: u8,
    pub heard: u8,
    pub times: [u16; MOST_LEDGERS as usize],
    pub phase: Phase,
}

impl Place {
    pub fn has_heard(&self, ledger: u8) -> bool {
        self.heard & bit(ledger) != 0
    }

    pub fn time_of(&self, ledger: u8) -> u16 {
        self.times[ledger as usize - 1]
    }

    fn keep(&mut self, ledger: u8, time: u16) {
        self.heard |= bit(ledger);
        self.times[ledger as usize - 1] = time;
    }

    /// A ledger's proposal, as a stamp.
    pub fn proposal_of(&self, ledger: u8) -> Stamp {
        Stamp { time: self.time_of(ledger), ledger }
    }

    /// The greatest proposal: the stamp, once every destination is heard.
    pub fn stamp(&self) -> Option<Stamp> {
        (1..=MOST_LEDGERS)
            .filter(|ledger| self.has_heard(*ledger))
            .map(|ledger| self.proposal_of(ledger))
            .max()
    }
}

#[derive(Clone, PartialEq, Eq, Debug, Default)]
pub struct Ledger {
    pub ledgers: u8,
    pub own: u8,
    pub clock: u16,
    pub count: usize,
    pub places: [Place; MOST_PAYMENTS],
}

/// What a step hands back, beside the state.
#[derive(Clone, Copy, PartialEq, Eq, Debug, Default)]
pub struct Outcome {
    pub answer: u8,
    pub recipients: u8,
    pub copies: usize,
    pub postings: usize,
}

impl Ledger {
    /// The fresh state, or answer 1 and the all-zero state.
    pub fn set_up(ledgers: u8, own: u8) -> (Ledger, u8) {
        let lawful = (1..=MOST_LEDGERS).contains(&ledgers) && (1..=ledgers).contains(&own);
        if !lawful {
            return (Ledger::default(), 1);
        }
        let fresh = Ledger { ledgers, own, ..Ledger::default() };
        (fresh, 0)
    }

    pub fn held(&self) -> &[Place] {
        &self.places[..self.count]
    }

    /// The step for one incoming frame, without mistakes.
    pub fn step(&mut self, frame: &[u8], outgoing: &mut [u8], list: &mut [u32]) -> Outcome {
        self.step_with(None, frame, outgoing, list)
    }

    /// The step, with one of the mistakes or none.
    pub fn step_with(
        &mut self,
        mistake: Option<Mistake>,
        frame: &[u8],
        outgoing: &mut [u8],
        list: &mut [u32],
    ) -> Outcome {
        let frame = match self.judge(mistake, frame, outgoing.len(), list.len()) {
            Ok(frame) => frame,
            Err(answer) => return Outcome { answer, ..Outcome::default() },
        };
        if mistake == Some(Mistake::DropsEarlyProposals) && self.is_early(&frame) {
            return Outcome::default();
        }
        let place = self.place_for(&frame);
        let recipients = match frame.proposal {
            None => self.propose(place, outgoing),
            Some(proposal) => {
                self.places[place].keep(proposal.source, proposal.time);
                0
            }
        };
        self.stamp(place);
        Outcome {
            answer: 0,
            recipients,
            copies: recipients.count_ones() as usize,
            postings: self.post(mistake, place, list),
        }
    }

    /// Not empty, not beyond N, and with this ledger.
    pub fn are_lawful(&self, destinations: u8) -> bool {
        let beyond = u32::from(destinations) >> self.ledgers;
        destinations != 0 && beyond == 0 && destinations & bit(self.own) != 0
    }

    pub(crate) fn find(&self, payment: u32) -> Option<usize> {
        self.held().iter().position(|place| place.payment == payment)
    }

    /// A PROPOSE that came before its MULTICAST.
    fn is_early(&self, frame: &Frame) -> bool {
        let waiting = match self.find(frame.payment) {
            None => true,
            Some(index) => self.places[index].phase == Phase::Waiting,
        };
        frame.proposal.is_some() && waiting
    }

    /// The payment's place; one not held goes to the first unused place.
    fn place_for(&mut self, frame: &Frame) -> usize {
        if let Some(index) = self.find(frame.payment) {
            return index;
        }
        self.places[self.count] =
            Place { payment: frame.payment, destinations: frame.destinations, ..Place::default() };
        self.count += 1;
        self.count - 1
    }

    /// Rule 1. Hands back the recipients.
    fn propose(&mut self, index: usize, outgoing: &mut [u8]) -> u8 {
        self.clock += 1;
        let place = &mut self.places[index];
        place.keep(self.own, self.clock);
        place.phase = Phase::Proposed;
        let recipients = place.destinations & !bit(self.own);
        if recipients != 0 {
            let frame = Frame::propose(place.payment, place.destinations, self.own, self.clock);
            outgoing[..PROPOSE_LENGTH].copy_from_slice(&frame.bytes());
        }
        recipients
    }

    /// Rule 3.
    fn stamp(&mut self, index: usize) {
        let place = &mut self.places[index];
        if place.heard == place.destinations {
            place.phase = Phase::Stamped;
            let time = place.stamp().map_or(0, |stamp| stamp.time);
            self.clock = self.clock.max(time);
        }
    }

    /// Rule 4. `touched` is the place the frame spoke of.
    fn post(&mut self, mistake: Option<Mistake>, touched: usize, list: &mut [u32]) -> usize {
        let mut free: Vec<usize> = (0..self.count)
            .filter(|index| self.places[*index].phase == Phase::Stamped)
            .filter(|index| {
                mistake == Some(Mistake::PostsWhenStamped) || !self.is_held_back(mistake, *index)
            })
            .filter(|index| mistake != Some(Mistake::ForgetsTheHeldBack) || *index == touched)
            .collect();
        // Sorting keeps the order of places where the keys are equal, which
        // only happens where ledgers are left out of the comparison.
        free.sort_by_key(|index| {
            let stamp = self.places[*index].stamp().expect("a stamped payment was heard");
            let times_only = mistake == Some(Mistake::ComparesTimesOnly);
            (stamp.time, if times_only { 0 } else { stamp.ledger })
        });
        for (entry, index) in list.iter_mut().zip(&free) {
            *entry = self.places[*index].payment;
            self.places[*index].phase = Phase::Posted;
        }
        free.len()
    }

    fn is_held_back(&self, mistake: Option<Mistake>, index: usize) -> bool {
        let stamp = self.places[index].stamp().expect("a stamped payment was heard");
        let proposed = self.held().iter().filter(|other| other.phase == Phase::Proposed);
        proposed.map(|other| other.proposal_of(self.own)).any(|own| match mistake {
            Some(Mistake::HoldsBackAtEqualTimes) => own.time <= stamp.time,
            Some(Mistake::HoldsBackAtSmallerTimesOnly) => own.time < stamp.time,
            _ => own < stamp,
        })
    }
}
