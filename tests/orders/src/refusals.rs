//! The answers 1 to 11 (A1 to A11 of the rules).

use crate::frame::{self, Frame, Proposal, PROPOSE_LENGTH};
use crate::ledger::{bit, Ledger, Phase, LAST_TIME, MOST_PAYMENTS};
use crate::mistake::Mistake;
use crate::sound::is_sound;

impl Ledger {
    /// The table of answers, in its order: the first that applies.
    pub(crate) fn judge(
        &self,
        mistake: Option<Mistake>,
        bytes: &[u8],
        outgoing_length: usize,
        list_length: usize,
    ) -> Result<Frame, u8> {
        // A wrong ledger may leave lawless states; it is to be caught by what
        // it does, not by its own soundness check.
        if mistake.is_none() && !is_sound(self) {
            return Err(1);
        }
        if outgoing_length < PROPOSE_LENGTH || list_length < MOST_PAYMENTS {
            return Err(2);
        }
        let frame = frame::read(bytes).ok_or(3)?;
        if frame.payment == 0 {
            return Err(4);
        }
        if !self.are_lawful(frame.destinations) {
            return Err(5);
        }
        if let Some(proposal) = frame.proposal {
            self.judge_proposal(frame.destinations, proposal)?;
        }
        if self.contradicts(&frame) {
            return Err(8);
        }
        if self.repeats(mistake, &frame) {
            return Err(9);
        }
        if self.find(frame.payment).is_none() && self.count == MOST_PAYMENTS {
            return Err(10);
        }
        if frame.proposal.is_none() && self.clock == LAST_TIME {
            return Err(11);
        }
        Ok(frame)
    }

    fn judge_proposal(&self, destinations: u8, proposal: Proposal) -> Result<(), u8> {
        let source = proposal.source;
        let lawful_source = (1..=self.ledgers).contains(&source)
            && destinations & bit(source) != 0
            && source != self.own;
        if !lawful_source {
            return Err(6);
        }
        if !(1..=LAST_TIME).contains(&proposal.time) {
            return Err(7);
        }
        Ok(())
    }

    /// Answer 8. A source has one time for a payment and one payment for a
    /// time, so a time heard from it must agree in both or in neither.
    fn contradicts(&self, frame: &Frame) -> bool {
        self.held().iter().any(|place| {
            let same_payment = place.payment == frame.payment;
            let other_destinations = same_payment && place.destinations != frame.destinations;
            let other_time = frame.proposal.is_some_and(|proposal| {
                let same_time = place.time_of(proposal.source) == proposal.time;
                place.has_heard(proposal.source) && same_payment != same_time
            });
            other_destinations || other_time
        })
    }

    /// Only asked once `contradicts` said no, so a source heard for this
    /// payment was heard with this time.
    fn repeats(&self, mistake: Option<Mistake>, frame: &Frame) -> bool {
        let Some(index) = self.find(frame.payment) else {
            return false;
        };
        let place = &self.places[index];
        match frame.proposal {
            Some(proposal) => place.has_heard(proposal.source),
            None if mistake == Some(Mistake::GivesRetriesAFreshTime) => {
                matches!(place.phase, Phase::Stamped | Phase::Posted)
            }
            None => place.phase != Phase::Waiting,
        }
    }
}
