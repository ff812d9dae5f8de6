//! The calls as they are, over lists and buffers of the caller's, with no allocation. What a refusal leaves in them is said in
//! `include/av1rtp.h`; on success only the first records or bytes change, as many as the answer says.
//!
//! A list is flat: [`OBU_NUMBERS`] or [`PLAN_NUMBERS`] numbers a record, and an unfinished record at its end does not count.
use crate::ffi::{self, Answer};
use crate::{Reason, Refusal};

/// The numbers of a record in an OBU list: header, extension byte or 0, payload start, payload length, size.
pub const OBU_NUMBERS: usize = 5;

/// The numbers of a record in a plan: first OBU, elements, first offset, last size, packet size, payload start.
pub const PLAN_NUMBERS: usize = 6;

/// What the size-field call reads.
#[derive(Clone, Copy, Debug, PartialEq, Eq)]
pub struct SizeField {
    /// The value.
    pub value: u32,
    /// The bytes that the field takes.
    pub used: usize,
    /// Whether they are the shortest form of the value; a longer one is padded.
    pub shortest: bool,
}

/// What the list call finds.
#[derive(Clone, Copy, Debug, PartialEq, Eq)]
pub struct Listed {
    /// Kept OBUs, whose records are first in the OBU list.
    pub obus: usize,
    /// OBUs of the unit, dropped ones too, whose size field is padded.
    pub padded: usize,
}

/// What the plan call finds.
#[derive(Clone, Copy, Debug, PartialEq, Eq)]
pub struct Planned {
    /// Kept OBUs, whose records are first in the OBU list.
    pub obus: usize,
    /// Packets, whose records are first in the plan.
    pub packets: usize,
}

/// What a receiver holds besides its store. The default is fresh, and every train begins with a fresh one.
#[derive(Clone, Copy, Debug, Default, PartialEq, Eq)]
pub struct State {
    words: [usize; 3],
}

impl State {
    /// A state of these parts: whether a packet was taken, the last number taken, and the length of the open fragment.
    pub fn new(begun: bool, last: u16, open: usize) -> State {
        State { words: [begun as usize, last as usize, open] }
    }

    /// Whether a packet was taken.
    pub fn begun(&self) -> bool {
        self.words[0] != 0
    }

    /// The last number taken, or 0.
    pub fn last(&self) -> u16 {
        self.words[1] as u16
    }

    /// The length of the open fragment.
    pub fn open(&self) -> usize {
        self.words[2]
    }
}

/// What a packet that is taken gives.
#[derive(Clone, Copy, Debug, PartialEq, Eq)]
pub struct Received {
    /// Bytes of the OBUs that it finishes, which are first in the output.
    pub bytes: usize,
    /// Its padded fields: length fields of its elements, thrown away or not, and size fields inside the OBUs that it finishes, dropped
    /// ones too. A size field that came in an earlier packet counts where its OBU is finished.
    pub padded: usize,
}

/// An element's place in its payload, and how many elements there are.
#[derive(Clone, Copy, Debug, PartialEq, Eq)]
pub struct ElementPlace {
    /// Elements of the payload.
    pub elements: usize,
    /// Where the element asked for starts; 0 if there is none.
    pub start: usize,
    /// Its length; 0 if there is none.
    pub length: usize,
}

/// A train's head.
#[derive(Clone, Copy, Debug, PartialEq, Eq)]
pub struct TrainHead {
    /// The version, 1 or 2.
    pub version: u8,
    /// The bytes of a length in this version, 2 or 4.
    pub width: usize,
}

/// A train's record.
#[derive(Clone, Copy, Debug, PartialEq, Eq)]
pub struct RecordPlace {
    /// The packet's number.
    pub number: u16,
    /// Where its payload starts in the train.
    pub start: usize,
    /// The payload's length, at least 1.
    pub length: usize,
}

/// Makes a call, and takes its number and words for a result.
#[inline]
fn answered(call: impl FnOnce(&mut Answer) -> u32) -> Result<[usize; 3], Refusal> {
    let mut answer = [0; 4];
    let number = call(&mut answer);
    let [offset, a, b, c] = answer;
    match Reason::from_number(number) {
        Some(reason) => Err(Refusal::new(reason, offset)),
        None => {
            debug_assert_eq!(number, 0);
            Ok([a, b, c])
        }
    }
}

/// The list call: how many OBUs of a unit are kept, and how many size fields are padded. Refusals 2 to 8.
#[inline]
pub fn list(unit: &[u8], obus: &mut [u32]) -> Result<Listed, Refusal> {
    answered(|answer| ffi::list(unit, obus, answer)).map(|[obus, padded, _]| Listed { obus, padded })
}

/// The plan call: list and plan, which the writing calls take. Refusals 1 to 9.
#[inline]
pub fn plan(mtu: usize, unit: &[u8], obus: &mut [u32], plan: &mut [u32]) -> Result<Planned, Refusal> {
    answered(|answer| ffi::plan(mtu, unit, obus, plan, answer))
        .map(|[obus, packets, _]| Planned { obus, packets })
}

/// Writes packet k, by the list and plan that [`plan`] gave for this mtu and unit, and gives its length: its record's packet size and
/// 1, at most `mtu`. The lists may be longer than their filled part, and what stands behind it is not looked at. Each call walks over
/// unit and records to see that list and plan are the unit's own; [`write_packets`] does so once for many packets.
///
/// Refusals 1 to 7, 31, 11, 10, in this order; a refusal writes nothing.
#[inline]
pub fn write_packet(
    mtu: usize,
    unit: &[u8],
    obus: &[u32],
    plan: &[u32],
    k: usize,
    out: &mut [u8],
) -> Result<usize, Refusal> {
    answered(|answer| ffi::write_packet(mtu, unit, obus, plan, k, out, answer)).map(|[bytes, _, _]| bytes)
}

/// Writes `count` packets from packet `first` on, one after the other, each as [`write_packet`] does, and gives their length together:
/// from the payload start of the first one's record to the end of the last one. A count of 0 writes nothing.
///
/// Refusals 1 to 7, 31, 11, 10, in this order; a refusal writes nothing.
#[inline]
pub fn write_packets(
    mtu: usize,
    unit: &[u8],
    obus: &[u32],
    plan: &[u32],
    first: usize,
    count: usize,
    out: &mut [u8],
) -> Result<usize, Refusal> {
    let run = ffi::Run { first, count };
    answered(|answer| ffi::write_packets(mtu, unit, obus, plan, run, out, answer)).map(|[bytes, _, _]| bytes)
}

/// The header call: the aggregation header of packet k, from a unit and lists of any numbers. Lend the filled part of a list: an old
/// record behind it would count, for flag N and for refusal 11. Refusal 11.
#[inline]
pub fn header(unit: &[u8], obus: &[u32], plan: &[u32], k: usize) -> Result<u8, Refusal> {
    answered(|answer| ffi::header(unit, obus, plan, k, answer)).map(|[byte, _, _]| byte as u8)
}

/// The element call: where element k lies. Refusals 13, 15, 16, 17.
#[inline]
pub fn element(payload: &[u8], k: usize) -> Result<ElementPlace, Refusal> {
    answered(|answer| ffi::element(payload, k, answer)).map(|[elements, start, length]| ElementPlace {
        elements,
        start,
        length,
    })
}

/// The receive call: takes one packet, and gives how many bytes of OBUs are first in `out`, and how many of its fields are padded.
/// Refusals 12 to 20.
#[inline]
pub fn receive(
    state: &mut State,
    number: u16,
    payload: &[u8],
    store: &mut [u8],
    out: &mut [u8],
) -> Result<Received, Refusal> {
    answered(|answer| ffi::receive(&mut state.words, number, payload, store, out, answer))
        .map(|[bytes, padded, _]| Received { bytes, padded })
}

/// The head of a train; its first record begins at 1. Refusal 21.
#[inline]
pub fn train_head(train: &[u8]) -> Result<TrainHead, Refusal> {
    answered(|answer| ffi::train_head(train, answer))
        .map(|[version, width, _]| TrainHead { version: version as u8, width })
}

/// The record that begins at `at`, in a train whose lengths have `width` bytes; nothing at the end and past it. Any width but 4 counts
/// as 2. Refusals 22 and 23.
#[inline]
pub fn train_record(train: &[u8], width: usize, at: usize) -> Result<Option<RecordPlace>, Refusal> {
    let words = answered(|answer| ffi::train_record(train, width, at, answer))?;
    let [number, start, length] = words;
    Ok((length > 0).then_some(RecordPlace { number: number as u16, start, length }))
}

/// What stands before a payload, in the first `width` + 2 bytes of `head`; the others stay. `stated` is the payload's length plus 2. Any
/// `stated` is written, with width 2 its low 16 bits, and 0 to 2 too, though no reader takes such a record (23). Any width but 4 counts
/// as 2.
#[inline]
pub fn train_record_head(stated: u32, number: u16, width: usize, head: &mut [u8; 6]) {
    ffi::train_record_head(stated, number, width, head)
}

/// The size field (leb128) at the front of some bytes: its value, the bytes that it takes, and whether it is the shortest form. Refusals
/// 5 and 6.
#[inline]
pub fn size_field(bytes: &[u8]) -> Result<SizeField, Refusal> {
    answered(|answer| ffi::size_field(bytes, answer)).map(|[value, used, shortest]| SizeField {
        value: value as u32,
        used,
        shortest: shortest != 0,
    })
}
