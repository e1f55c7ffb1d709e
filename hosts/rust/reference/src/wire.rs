//! From the wire: 01, and W-204 for OEM. The frame in hand is kept as it came.

const STX: u8 = 0x02;
const ETX: u8 = 0x03;
const CR: u8 = 0x0D;

/// A complete frame.
pub struct Frame {
    pub address: u8,
    pub data: Vec<u8>,
}

#[derive(Clone)]
pub enum Receiver {
    /// What came behind `/`, if a frame is in hand.
    Dt(Option<Vec<u8>>),
    /// What came from 02h on, if a frame is in hand. Its 03h, once there, is its last byte.
    Oem(Option<Vec<u8>>),
}

fn printable(b: u8) -> bool {
    (0x20..=0x7E).contains(&b)
}

fn sum(bytes: &[u8]) -> u8 {
    bytes.iter().fold(0, |sum, b| sum ^ b)
}

impl Receiver {
    pub fn new(oem: bool) -> Receiver {
        if oem {
            Receiver::Oem(None)
        } else {
            Receiver::Dt(None)
        }
    }

    pub fn is_oem(&self) -> bool {
        matches!(self, Receiver::Oem(_))
    }

    /// Whether a byte would complete a frame, to whomever.
    pub fn completes(&self, b: u8) -> bool {
        match self {
            Receiver::Dt(Some(came)) => b == CR && !came.is_empty(),
            Receiver::Oem(Some(came)) => came.last() == Some(&ETX) && sum(came) == b && (0x30..=0x37).contains(&came[2]),
            Receiver::Dt(None) | Receiver::Oem(None) => false,
        }
    }

    pub fn feed(&mut self, b: u8) -> Option<Frame> {
        let complete = self.completes(b);
        match self {
            Receiver::Dt(hand) => {
                let came = hand.take();
                if complete {
                    return came.map(|came| Frame { address: came[0], data: came[1..].to_vec() });
                }
                *hand = dt_after(came, b);
            }
            Receiver::Oem(hand) => {
                let came = hand.take();
                if complete {
                    return came.map(|came| Frame { address: came[1], data: came[3..came.len() - 1].to_vec() });
                }
                *hand = oem_after(came, b);
            }
        }
        None
    }
}

/// `/` always starts a frame; a byte that may not stand there drops it; CR straight after `/` does too.
fn dt_after(came: Option<Vec<u8>>, b: u8) -> Option<Vec<u8>> {
    if b == b'/' {
        return Some(Vec::new());
    }
    let mut came = came?;
    if !printable(b) {
        return None;
    }
    came.push(b);
    Some(came)
}

/// Until 03h, 02h starts afresh; 03h in place of address or sequence drops the frame; what follows 03h is the sum, and then it is over.
fn oem_after(came: Option<Vec<u8>>, b: u8) -> Option<Vec<u8>> {
    let ended = matches!(&came, Some(came) if came.last() == Some(&ETX));
    if ended {
        return None;
    }
    if b == STX {
        return Some(vec![STX]);
    }
    let mut came = came?;
    let headed = came.len() >= 3;
    if printable(b) || (b == ETX && headed) {
        came.push(b);
        return Some(came);
    }
    None
}

/// An answer: status and data in its frame.
pub fn framed(oem: bool, status: u8, data: &[u8]) -> Vec<u8> {
    let mut answer = vec![if oem { STX } else { b'/' }, b'0', status];
    answer.extend_from_slice(data);
    answer.push(ETX);
    if oem {
        answer.push(sum(&answer));
    } else {
        answer.extend_from_slice(b"\r\n");
    }
    answer
}
