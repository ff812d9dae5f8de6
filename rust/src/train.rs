//! The train file: a version byte, and then the packets of one run with their numbers.
//!
//! Version 1 states lengths in 16 bits, version 2 in 32 bits. Both are read. A writer chooses by its mtu, so that a train of version 2,
//! which an older reader refuses (21), is only written for packets that version 1 may have no room for.
//!
//! A number counts within its train only. Trains are never joined, and each is given to a [`Receiver`](crate::Receiver) of its own.
use crate::lent::{self, TrainHead};
use crate::{Reason, Refusal, PAYLOAD_LIMIT};

/// The most bytes of a payload in a train of version 1. A train whose mtu is above this is of version 2.
pub const SHORT_PAYLOAD: usize = 65_533;

/// A packet of a train.
#[derive(Clone, Copy, Debug, PartialEq, Eq)]
pub struct Packet<'a> {
    /// Its number.
    pub number: u16,
    /// Its payload, a part of the train.
    pub payload: &'a [u8],
}

/// The packets of a train, in order. The last item is a refusal, 22 or 23, if the train is cut or broken; what came before stands.
///
/// ```
/// use av1rtp::train::{Packets, Writer};
/// let mtu = 3;
/// let mut train = Writer::new(mtu, 65535);
/// for payload in &av1rtp::payload(&[0x0A, 0x01, 0x7F], mtu).unwrap() {
///     train.push(payload).unwrap();
/// }
/// let train = train.into_bytes();
/// assert_eq!(train, [1, 0, 4, 0xFF, 0xFF, 0x50, 0x08, 0, 4, 0, 0, 0x90, 0x7F]);
///
/// let mut receiver = av1rtp::Receiver::new();
/// let mut obus = Vec::new();
/// let packets = Packets::new(&train).unwrap();
/// assert_eq!(packets.version(), 1);
/// for packet in packets {
///     let packet = packet.unwrap();
///     obus.extend_from_slice(receiver.receive(packet.number, packet.payload).unwrap());
/// }
/// assert_eq!(obus, [0x0A, 0x01, 0x7F]);
/// ```
#[derive(Clone, Debug)]
pub struct Packets<'a> {
    train: &'a [u8],
    head: TrainHead,
    at: usize,
    over: bool,
}

impl<'a> Packets<'a> {
    /// The packets of this train, of either version. Refusal 21.
    pub fn new(train: &'a [u8]) -> Result<Packets<'a>, Refusal> {
        let head = lent::train_head(train)?;
        Ok(Packets { train, head, at: 1, over: false })
    }

    /// The version of the train, 1 or 2.
    pub fn version(&self) -> u8 {
        self.head.version
    }
}

impl<'a> Iterator for Packets<'a> {
    type Item = Result<Packet<'a>, Refusal>;

    fn next(&mut self) -> Option<Self::Item> {
        if self.over {
            return None;
        }
        match lent::train_record(self.train, self.head.width, self.at).transpose()? {
            Ok(record) => {
                self.at = record.start + record.length;
                Some(Ok(Packet { number: record.number, payload: &self.train[record.start..self.at] }))
            }
            Err(refusal) => {
                self.over = true;
                Some(Err(refusal))
            }
        }
    }
}

impl std::iter::FusedIterator for Packets<'_> {}

/// Writes a train, and numbers its packets in one run, modulo 65,536.
///
/// ```
/// use av1rtp::train::Writer;
/// let mut train = Writer::new(1_048_576, 7); // an mtu above SHORT_PAYLOAD: version 2
/// train.push(&[0x10, 0x30]).unwrap();
/// assert_eq!((train.version(), train.as_bytes()), (2, &[2, 0, 0, 0, 4, 0, 7, 0x10, 0x30][..]));
/// ```
#[derive(Clone, Debug)]
pub struct Writer {
    bytes: Vec<u8>,
    head: TrainHead,
    next: u16,
}

impl Writer {
    /// A train of no packets yet, for packets of at most `mtu` bytes; the first will have this number. The train is of version 2 exactly if
    /// the mtu is above [`SHORT_PAYLOAD`], and else of version 1.
    pub fn new(mtu: usize, first: u16) -> Writer {
        let head = if mtu > SHORT_PAYLOAD {
            TrainHead { version: 2, width: 4 }
        } else {
            TrainHead { version: 1, width: 2 }
        };
        Writer { bytes: vec![head.version], head, next: first }
    }

    /// Adds a packet, and gives its number. Refused (13) is a payload that no receiver takes, empty or longer than [`PAYLOAD_LIMIT`], and
    /// in a train of version 1 one longer than [`SHORT_PAYLOAD`]; the mtu itself is not looked at.
    pub fn push(&mut self, payload: &[u8]) -> Result<u16, Refusal> {
        let longest = if self.head.version == 1 { SHORT_PAYLOAD } else { PAYLOAD_LIMIT };
        if payload.is_empty() || payload.len() > longest {
            return Err(Refusal::new(Reason::PayloadLength, 0));
        }
        let (number, width) = (self.next, self.head.width);
        let mut head = [0; 6];
        lent::train_record_head(payload.len() as u32 + 2, number, width, &mut head);
        self.bytes.extend_from_slice(&head[..width + 2]);
        self.bytes.extend_from_slice(payload);
        self.next = number.wrapping_add(1);
        Ok(number)
    }

    /// The version of the train, 1 or 2.
    pub fn version(&self) -> u8 {
        self.head.version
    }

    /// The number of the next packet.
    pub fn next_number(&self) -> u16 {
        self.next
    }

    /// The train so far.
    pub fn as_bytes(&self) -> &[u8] {
        &self.bytes
    }

    /// The train.
    pub fn into_bytes(self) -> Vec<u8> {
        self.bytes
    }
}
