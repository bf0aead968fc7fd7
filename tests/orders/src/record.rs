//! The records the drill reads.

use crate::frame::{self, Frame};

pub const GROUP: u8 = 16;
pub const MULTICAST_TO: u8 = 17;
pub const PROPOSE_TO: u8 = 18;

/// The whole length of a record of this kind, or none if the kind is unknown.
pub fn length_of(kind: u8) -> Option<usize> {
    match kind {
        GROUP => Some(2),
        MULTICAST_TO => Some(1 + frame::MULTICAST_LENGTH),
        PROPOSE_TO => Some(1 + frame::PROPOSE_LENGTH),
        _ => None,
    }
}

pub fn group(ledgers: u8) -> Vec<u8> {
    vec![GROUP, ledgers]
}

pub fn step(target: u8, frame: &Frame) -> Vec<u8> {
    let kind = match frame.proposal {
        None => MULTICAST_TO,
        Some(_) => PROPOSE_TO,
    };
    let mut record = vec![kind, target];
    record.extend(frame.body());
    record
}

/// The frame inside a whole step record: its kind, then all after the target.
pub fn frame_inside(record: &[u8]) -> Vec<u8> {
    let kind = match record[0] {
        MULTICAST_TO => frame::MULTICAST,
        _ => frame::PROPOSE,
    };
    let mut bytes = vec![kind];
    bytes.extend(&record[2..]);
    bytes
}

/// The input in pieces of one whole record each. Where no whole record begins
/// (unknown kind, cut short), the rest is the last piece.
pub fn pieces(input: &[u8]) -> Vec<&[u8]> {
    let mut pieces = Vec::new();
    let mut rest = input;
    while let Some(kind) = rest.first() {
        let length = length_of(*kind).unwrap_or(rest.len()).min(rest.len());
        let (piece, after) = rest.split_at(length);
        pieces.push(piece);
        rest = after;
    }
    pieces
}
