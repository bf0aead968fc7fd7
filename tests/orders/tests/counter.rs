//! The worked cases A to K on the plain ledger: what the drill is compared
//! with has to be right itself. These need no drill.

use orders::frame::{self, Frame};
use orders::ledger::{Ledger, Outcome, Phase, Stamp};
use orders::sound::is_sound;

/// Ledger 1 of 2, with buffers filled so that a written byte shows.
struct Counter {
    ledger: Ledger,
    outgoing: [u8; 12],
    list: [u32; 40],
}

fn fresh() -> Counter {
    Counter { ledger: Ledger::set_up(2, 1).0, outgoing: [0xee; 12], list: [77; 40] }
}

impl Counter {
    /// Steps, and checks what holds of every step.
    fn step(&mut self, frame: &[u8]) -> Outcome {
        let before = (self.ledger.clone(), self.outgoing, self.list);
        let outcome = self.ledger.step(frame, &mut self.outgoing, &mut self.list);
        assert!(is_sound(&self.ledger));
        if outcome.answer != 0 {
            assert_eq!((self.ledger.clone(), self.outgoing, self.list), before);
            assert_eq!(outcome, Outcome { answer: outcome.answer, ..Outcome::default() });
        }
        assert!(self.list[outcome.postings..].iter().all(|entry| *entry == 77));
        outcome
    }

    fn answer(&mut self, frame: Frame) -> u8 {
        self.list = [77; 40];
        self.step(&frame.bytes()).answer
    }
}

fn outcome(recipients: u8, copies: usize, postings: usize) -> Outcome {
    Outcome { answer: 0, recipients, copies, postings }
}

#[test]
fn cases_a_to_d_propose_stamp_and_post() {
    let mut a = fresh();
    assert_eq!(a.step(&Frame::multicast(7, 3).bytes()), outcome(2, 1, 0));
    assert_eq!(a.outgoing, [2, 0, 0, 0, 7, 3, 1, 0, 1, 0xee, 0xee, 0xee]);
    assert_eq!(a.ledger.clock, 1);
    assert_eq!(a.answer(Frame::multicast(7, 3)), 9, "B");

    let mut c = fresh();
    assert_eq!(c.step(&Frame::multicast(7, 1).bytes()), outcome(0, 0, 1));
    assert_eq!((c.list[0], c.ledger.clock, c.outgoing), (7, 1, [0xee; 12]));

    let mut d = fresh();
    assert_eq!(d.step(&Frame::propose(7, 3, 2, 5).bytes()), outcome(0, 0, 0));
    assert_eq!((d.ledger.clock, d.ledger.places[0].phase), (0, Phase::Waiting));
    assert_eq!(d.step(&Frame::multicast(7, 3).bytes()), outcome(2, 1, 1));
    let place = &d.ledger.places[0];
    assert_eq!(place.time_of(1), 1);
    assert_eq!(place.stamp(), Some(Stamp { time: 5, ledger: 2 }));
    assert_eq!((d.ledger.clock, d.list[0]), (5, 7));
}

#[test]
fn cases_e_to_h_refuse_lawless_fields() {
    assert_eq!(fresh().answer(Frame::propose(7, 3, 1, 5)), 6, "E");
    for (time, wanted) in [(0, 7), (60_000, 0), (60_001, 7)] {
        assert_eq!(fresh().answer(Frame::propose(7, 3, 2, time)), wanted, "F: {time}");
    }
    for destinations in [0, 2, 4] {
        assert_eq!(fresh().answer(Frame::multicast(7, destinations)), 5, "G: {destinations}");
    }
    for frame in [&[][..], &[1, 0, 0, 0, 7], &[1, 0, 0, 0, 7, 3, 0], &[3, 0, 0, 0, 7, 3]] {
        assert_eq!(fresh().step(frame).answer, 3, "H: {frame:?}");
    }
    assert_eq!(fresh().answer(Frame::multicast(0, 0)), 4, "H");
}

#[test]
fn cases_i_and_j_refuse_contradictions_and_a_full_clock() {
    let mut i = fresh();
    assert_eq!(i.answer(Frame::propose(7, 3, 2, 5)), 0);
    assert_eq!(i.answer(Frame::propose(7, 3, 2, 6)), 8);
    assert_eq!(i.answer(Frame::propose(9, 3, 2, 5)), 8);
    assert_eq!(i.answer(Frame::propose(7, 3, 2, 5)), 9);

    let mut j = fresh();
    assert_eq!(j.answer(Frame::propose(7, 3, 2, 60_000)), 0);
    assert_eq!(j.step(&Frame::multicast(7, 3).bytes()), outcome(2, 1, 1));
    assert_eq!((j.ledger.clock, j.list[0]), (60_000, 7));
    assert_eq!(j.answer(Frame::multicast(9, 3)), 11);
}

#[test]
fn case_k_meets_the_limits() {
    let mut late = fresh();
    assert_eq!(late.answer(Frame::propose(7, 3, 2, 59_999)), 0);
    assert_eq!(late.answer(Frame::multicast(7, 3)), 0);
    assert_eq!(late.ledger.clock, 59_999);
    assert_eq!(late.answer(Frame::multicast(9, 3)), 0);
    assert_eq!(late.ledger.places[1].time_of(1), 60_000);

    let mut tight = fresh();
    let frame = Frame::multicast(7, 3).bytes();
    assert_eq!(tight.ledger.step(&frame, &mut [0; 8], &mut [0; 32]).answer, 2);
    assert_eq!(tight.ledger.step(&frame, &mut [0; 9], &mut [0; 31]).answer, 2);
    assert_eq!(tight.ledger.step(&frame, &mut [0; 9], &mut [0; 32]).answer, 0);

    let mut full = fresh();
    for payment in 1..=32 {
        assert_eq!(full.answer(Frame::multicast(payment, 3)), 0);
    }
    assert_eq!(full.answer(Frame::multicast(33, 3)), 10);
}

#[test]
fn refused_set_ups_give_the_all_zero_state_which_is_not_sound() {
    for (ledgers, own) in [(0, 0), (0, 1), (9, 1), (2, 0), (2, 3), (255, 255)] {
        assert_eq!(Ledger::set_up(ledgers, own), (Ledger::default(), 1));
    }
    let frame = Frame::multicast(7, 3).bytes();
    assert_eq!(Ledger::default().step(&frame, &mut [0; 9], &mut [0; 32]).answer, 1);
}

#[test]
fn a_written_frame_reads_back() {
    for frame in [Frame::multicast(0x0102_0304, 5), Frame::propose(u32::MAX, 255, 8, 0xabcd)] {
        assert_eq!(frame::read(&frame.bytes()), Some(frame));
    }
}
