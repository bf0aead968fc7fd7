//! When a state is sound (S1 to S11 of the rules), mostly in their order.

use crate::ledger::{bit, Ledger, Phase, Place, LAST_TIME, MOST_LEDGERS, MOST_PAYMENTS};

pub fn is_sound(ledger: &Ledger) -> bool {
    // The later conditions count on the earlier ones: own number and count
    // must be in range before a place can be looked into.
    numbers_are_in_range(ledger)
        && ledger.held().iter().all(|place| is_lawful(ledger, place))
        && ledger.places[ledger.count..].iter().all(|place| *place == Place::default())
        && payments_and_times_differ(ledger.held())
        && ledger.held().iter().all(|place| is_within_clock(ledger, place))
        && ledger.held().iter().all(|place| phase_fits(ledger, place))
        && postings_fit(ledger)
}

fn numbers_are_in_range(ledger: &Ledger) -> bool {
    (1..=MOST_LEDGERS).contains(&ledger.ledgers)
        && (1..=ledger.ledgers).contains(&ledger.own)
        && ledger.clock <= LAST_TIME
        && ledger.count <= MOST_PAYMENTS
}

/// Number, destinations, and which times are kept.
fn is_lawful(ledger: &Ledger, place: &Place) -> bool {
    let times_fit = (1..=MOST_LEDGERS).all(|k| {
        let time = place.time_of(k);
        if place.has_heard(k) {
            (1..=LAST_TIME).contains(&time)
        } else {
            time == 0
        }
    });
    place.payment != 0
        && ledger.are_lawful(place.destinations)
        && place.heard & !place.destinations == 0
        && times_fit
}

/// One ledger's times differ between payments. A stamp is one of its payment's
/// proposals here, so the proposals cover the stamps. Times not heard are 0.
fn payments_and_times_differ(held: &[Place]) -> bool {
    held.iter().enumerate().all(|(index, place)| {
        held[index + 1..].iter().all(|other| {
            let mut pairs = place.times.iter().zip(&other.times);
            let shares_a_time = pairs.any(|(time, other_time)| time == other_time && *time != 0);
            place.payment != other.payment && !shares_a_time
        })
    })
}

/// Neither the own time nor the time in the stamp is later than the clock.
fn is_within_clock(ledger: &Ledger, place: &Place) -> bool {
    let stamp_time = match place.phase {
        Phase::Stamped | Phase::Posted => place.stamp().map_or(0, |stamp| stamp.time),
        Phase::Waiting | Phase::Proposed => 0,
    };
    // An own time that was not heard is 0.
    place.time_of(ledger.own) <= ledger.clock && stamp_time <= ledger.clock
}

fn phase_fits(ledger: &Ledger, place: &Place) -> bool {
    let own_heard = place.has_heard(ledger.own);
    let others = place.destinations & !bit(ledger.own);
    match place.phase {
        Phase::Waiting => !own_heard && place.heard & others != 0,
        Phase::Proposed => own_heard && place.heard & others != others,
        Phase::Stamped | Phase::Posted => place.heard == place.destinations,
    }
}

/// 'Each below each' is said here as 'the greatest below the least'.
fn postings_fit(ledger: &Ledger) -> bool {
    let in_phase = |phase| ledger.held().iter().filter(move |place| place.phase == phase);
    let last_posted = in_phase(Phase::Posted).filter_map(Place::stamp).max();
    let first_stamped = in_phase(Phase::Stamped).filter_map(Place::stamp).min();
    let first_proposed = in_phase(Phase::Proposed).map(|place| place.proposal_of(ledger.own)).min();

    let none_is_free =
        first_stamped.is_none_or(|stamp| first_proposed.is_some_and(|own| own < stamp));
    let posted_come_first = last_posted.is_none_or(|posted| {
        first_stamped.is_none_or(|stamp| posted < stamp)
            && first_proposed.is_none_or(|own| posted < own)
    });
    none_is_free && posted_come_first
}
