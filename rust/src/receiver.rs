//! Receiving: packets of one train to OBUs.
use crate::lent::{self, State};
use crate::{Reason, Refusal, FRAGMENT_LIMIT, PAYLOAD_LIMIT};

/// Takes the packets of one train and hands out its OBUs, those all of whose packets came in step.
///
/// A packet number counts within one train only, so each train has a receiver of its own: packet 42 of another train would be taken
/// for the one after packet 41, and the open fragment of one work closed with the bytes of the other. There is no way to reset one.
///
/// ```
/// let mut receiver = av1rtp::Receiver::new();
/// assert_eq!(receiver.receive(65535, &[0x50, 0x08]), Ok(&[][..]));            // the OBU goes on in the next packet
/// assert_eq!(receiver.receive(0, &[0x90, 0x7F]), Ok(&[0x0A, 0x01, 0x7F][..]));
/// assert_eq!(receiver.receive(0, &[0x90, 0x7F]).unwrap_err().number(), 14);   // a repeat
/// ```
#[derive(Clone, Debug)]
pub struct Receiver {
    state: State,
    store: Vec<u8>,
    out: Vec<u8>,
    longest: usize,
    padded: usize,
}

/// More than a packet can ever hand out: the open fragment, and the payload with a size field for each of its elements.
const LONGEST_OUTPUT: usize = FRAGMENT_LIMIT + 5 * PAYLOAD_LIMIT;

/// More than what a packet hands out can be longer than its payload if nothing is joined: a size field for its last element.
const ADDED: usize = 8;

impl Default for Receiver {
    fn default() -> Receiver {
        Receiver::new()
    }
}

impl Receiver {
    /// A fresh receiver. Its store grows with the fragments that stay open, up to the limit of 1,048,576 bytes.
    pub fn new() -> Receiver {
        Receiver::with_store(FRAGMENT_LIMIT)
    }

    /// A fresh receiver whose store has at most so many bytes: a longer open fragment is refused (19).
    pub fn with_store(bytes: usize) -> Receiver {
        Receiver {
            state: State::default(),
            store: Vec::new(),
            out: Vec::new(),
            longest: bytes.min(FRAGMENT_LIMIT),
            padded: 0,
        }
    }

    /// Takes the packet of this number, and gives the OBUs that it finishes, one after the other, each with a size field.
    ///
    /// Refusals 13 to 19; a refusal changes nothing, and the next packet can be given.
    pub fn receive(&mut self, number: u16, payload: &[u8]) -> Result<&[u8], Refusal> {
        loop {
            match lent::receive(&mut self.state, number, payload, &mut self.store, &mut self.out) {
                Ok(received) => {
                    self.padded = received.padded;
                    return Ok(&self.out[..received.bytes]);
                }
                Err(refusal) => self.make_room(refusal, payload.len())?,
            }
        }
    }

    /// How many bytes of an unfinished OBU are held.
    pub fn open(&self) -> usize {
        self.state.open()
    }

    /// How many fields of the last packet taken are padded, that is longer than their values need: length fields of its elements, thrown
    /// away or not, and size fields inside the OBUs that it finished, dropped ones too. 0 before the first; a refusal leaves it.
    ///
    /// ```
    /// let mut receiver = av1rtp::Receiver::new();
    /// let payload = [0x30, 0x81, 0x00, 0x30, 0x81, 0x00, 0x30, 0x32, 0x80, 0x00];
    /// assert_eq!(receiver.receive(0, &payload), Ok(&[0x32, 0x00, 0x32, 0x00, 0x32, 0x00][..]));
    /// assert_eq!(receiver.padded(), 3);
    /// ```
    pub fn padded(&self) -> usize {
        self.padded
    }

    /// What refusals 19 and 20 ask for; any other stands.
    fn make_room(&mut self, refusal: Refusal, payload: usize) -> Result<(), Refusal> {
        let (buffer, most) = match refusal.reason() {
            Reason::FragmentTooLong => (&mut self.store, self.longest),
            Reason::NoRoomForObus => (&mut self.out, LONGEST_OUTPUT),
            _ => return Err(refusal),
        };
        let more = (2 * buffer.len()).max(payload + ADDED).min(most);
        if more <= buffer.len() {
            return Err(refusal);
        }
        buffer.resize(more, 0);
        Ok(())
    }
}

/// Element k of a payload, counted from 0, as a part of it; empty if there is none or the payload is bad.
///
/// ```
/// let payload = [0x20, 0x02, 0x08, 0x7F, 0x30];
/// assert_eq!(av1rtp::element(&payload, 0), [0x08, 0x7F]);
/// assert_eq!(av1rtp::element(&payload, 1), [0x30]);
/// assert_eq!(av1rtp::element(&payload, 2), []);
/// ```
pub fn element(payload: &[u8], k: usize) -> &[u8] {
    match lent::element(payload, k) {
        Ok(place) => &payload[place.start..place.start + place.length],
        Err(_) => &payload[..0],
    }
}

/// How many elements a payload has. Refusals 13, 15, 16, 17.
pub fn elements(payload: &[u8]) -> Result<usize, Refusal> {
    lent::element(payload, 0).map(|place| place.elements)
}

#[cfg(test)]
mod tests {
    use super::*;

    /// Store and output have room for what came, and not for what the limits allow.
    #[test]
    fn room_follows_need() {
        let mut receiver = Receiver::new();
        let mut number = 0;
        let mut given = |head: &[u8], bytes: usize| {
            receiver.receive(number, &[head, &vec![7; bytes]].concat()).unwrap();
            number += 1;
            (receiver.store.len(), receiver.out.len())
        };
        assert_eq!(given(&[0x10, 0x30], 1198), (0, 1200 + ADDED));
        assert_eq!(given(&[0x50, 0x30], 1198), (1200 + ADDED, 1200 + ADDED));
        let (store, out) = given(&[0xD0], 1199);
        assert!(store < 4 * 1200 && out < 2 * 1200);
        let (store, out) = given(&[0x90], 1199);
        assert!(store < 4 * 1200 && out < 6 * 1200);
        assert_eq!(given(&[0x10, 0x30], PAYLOAD_LIMIT - 2).1, PAYLOAD_LIMIT + ADDED);
        assert!(given(&[0x10, 0x30], 1198).0 < 4 * 1200);
    }
}
