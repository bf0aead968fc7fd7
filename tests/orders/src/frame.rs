//! Frames (F1 to F7 of the rules): a byte that says the kind, and the body that
//! goes with it. Numbers have their high byte in front.

pub const MULTICAST: u8 = 1;
pub const PROPOSE: u8 = 2;
pub const MULTICAST_LENGTH: usize = 6;
pub const PROPOSE_LENGTH: usize = 9;

/// What a PROPOSE carries more than a MULTICAST.
#[derive(Clone, Copy, PartialEq, Eq, Debug)]
pub struct Proposal {
    pub source: u8,
    pub time: u16,
}

/// A MULTICAST has no proposal, a PROPOSE has one.
#[derive(Clone, Copy, PartialEq, Eq, Debug)]
pub struct Frame {
    pub payment: u32,
    pub destinations: u8,
    pub proposal: Option<Proposal>,
}

impl Frame {
    pub fn multicast(payment: u32, destinations: u8) -> Frame {
        Frame { payment, destinations, proposal: None }
    }

    pub fn propose(payment: u32, destinations: u8, source: u8, time: u16) -> Frame {
        Frame { payment, destinations, proposal: Some(Proposal { source, time }) }
    }

    /// The bytes after the kind.
    pub fn body(&self) -> Vec<u8> {
        let mut body = self.payment.to_be_bytes().to_vec();
        body.push(self.destinations);
        if let Some(proposal) = self.proposal {
            body.push(proposal.source);
            body.extend(proposal.time.to_be_bytes());
        }
        body
    }

    /// The frame as written.
    pub fn bytes(&self) -> Vec<u8> {
        let kind = match self.proposal {
            None => MULTICAST,
            Some(_) => PROPOSE,
        };
        let mut bytes = vec![kind];
        bytes.extend(self.body());
        bytes
    }
}

/// Reads a frame. `None` is answer 3: there are no bytes, the kind is not one of
/// the two, or the length is wrong for it. Values are not judged here.
pub fn read(bytes: &[u8]) -> Option<Frame> {
    let kind = *bytes.first()?;
    let wanted = match kind {
        MULTICAST => MULTICAST_LENGTH,
        PROPOSE => PROPOSE_LENGTH,
        _ => return None,
    };
    if bytes.len() != wanted {
        return None;
    }
    let payment = u32::from_be_bytes([bytes[1], bytes[2], bytes[3], bytes[4]]);
    let proposal = (kind == PROPOSE)
        .then(|| Proposal { source: bytes[6], time: u16::from_be_bytes([bytes[7], bytes[8]]) });
    Some(Frame { payment, destinations: bytes[5], proposal })
}
