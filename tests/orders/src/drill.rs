//! The reference drill: what the drill has to print for an input, computed by
//! the plain ledger.

use crate::frame::PROPOSE_LENGTH;
use crate::ledger::{Ledger, MOST_LEDGERS, MOST_PAYMENTS};
use crate::mistake::Mistake;
use crate::record;

/// The whole output for a whole input.
pub fn output(input: &[u8]) -> Vec<u8> {
    output_with(None, input)
}

/// The same, with ledgers that make a mistake or none.
pub fn output_with(mistake: Option<Mistake>, input: &[u8]) -> Vec<u8> {
    let mut text = String::new();
    let mut group: Vec<Ledger> = Vec::new();
    let mut offset = 0;
    let mut steps = 0;
    while offset < input.len() {
        let Some(record) = whole_record(&input[offset..], group.len()) else {
            text += &format!("STOP {offset}\n");
            return text.into_bytes();
        };
        if record[0] == record::GROUP {
            group = fresh_group(record[1]);
            text += &format!("GROUP {}\n", record[1]);
        } else {
            text += &step_line(&mut group, mistake, record);
            steps += 1;
        }
        offset += record.len();
    }
    text += &format!("END {steps}\n");
    text.into_bytes()
}

/// The record that `rest` begins with, unless it has to stop the run. Before
/// any set-up there are 0 ledgers, so no target is good then.
fn whole_record(rest: &[u8], ledgers: usize) -> Option<&[u8]> {
    let record = rest.get(..record::length_of(rest[0])?)?;
    let most = match record[0] {
        record::GROUP => usize::from(MOST_LEDGERS),
        _ => ledgers,
    };
    (1..=most).contains(&usize::from(record[1])).then_some(record)
}

pub fn fresh_group(ledgers: u8) -> Vec<Ledger> {
    (1..=ledgers).map(|own| Ledger::set_up(ledgers, own).0).collect()
}

fn step_line(group: &mut [Ledger], mistake: Option<Mistake>, record: &[u8]) -> String {
    let target = record[1];
    let ledger = &mut group[usize::from(target) - 1];
    let mut outgoing = [0; PROPOSE_LENGTH];
    let mut list = [0; MOST_PAYMENTS];
    let frame = record::frame_inside(record);
    let outcome = ledger.step_with(mistake, &frame, &mut outgoing, &mut list);
    let mut line = format!("L{} A{}", target, outcome.answer);
    for payment in &list[..outcome.postings] {
        line += &format!(" P{payment}");
    }
    line + "\n"
}
