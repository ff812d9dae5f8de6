//! The payloads of one unit, as parts of one buffer.
use crate::lent::PLAN_NUMBERS;
use std::fmt;
use std::iter::FusedIterator;
use std::ops::Index;
use std::slice::ChunksExact;

/// The payloads of a unit's packets, in order, each a part of the one buffer that they were written into.
#[derive(Clone)]
pub struct Payloads<'a> {
    records: ChunksExact<'a, u32>,
    bytes: &'a [u8],
}

/// How many bytes the payloads of a plan take together: where the last one ends.
#[inline]
pub(crate) fn bytes_of(plan: &[u32]) -> usize {
    plan.chunks_exact(PLAN_NUMBERS).next_back().map_or(0, |record| place(record).1)
}

/// Where a payload starts and ends among all of its unit, by its record.
#[inline]
fn place(record: &[u32]) -> (usize, usize) {
    let (packet_size, payload_start) = (record[4] as usize, record[5] as usize);
    (payload_start, payload_start + packet_size + 1)
}

impl<'a> Payloads<'a> {
    /// Of a plan, no more than its filled part, and of all payloads that it speaks of.
    #[inline]
    pub(crate) fn new(plan: &'a [u32], bytes: &'a [u8]) -> Payloads<'a> {
        Payloads { records: plan.chunks_exact(PLAN_NUMBERS), bytes }
    }

    #[inline]
    fn part(&self, record: &[u32]) -> &'a [u8] {
        let (start, end) = place(record);
        &self.bytes[start..end]
    }
}

impl<'a> Iterator for Payloads<'a> {
    type Item = &'a [u8];

    #[inline]
    fn next(&mut self) -> Option<&'a [u8]> {
        let record = self.records.next()?;
        Some(self.part(record))
    }

    #[inline]
    fn size_hint(&self) -> (usize, Option<usize>) {
        self.records.size_hint()
    }

    #[inline]
    fn nth(&mut self, n: usize) -> Option<&'a [u8]> {
        let record = self.records.nth(n)?;
        Some(self.part(record))
    }
}

impl<'a> DoubleEndedIterator for Payloads<'a> {
    #[inline]
    fn next_back(&mut self) -> Option<&'a [u8]> {
        let record = self.records.next_back()?;
        Some(self.part(record))
    }
}

impl ExactSizeIterator for Payloads<'_> {}

impl FusedIterator for Payloads<'_> {}

impl fmt::Debug for Payloads<'_> {
    fn fmt(&self, f: &mut fmt::Formatter<'_>) -> fmt::Result {
        f.debug_list().entries(self.clone()).finish()
    }
}

/// The payloads of a unit's packets in a buffer of their own, which [`payload`](crate::payload) gives.
#[derive(Clone, Default)]
pub struct OwnedPayloads {
    plan: Vec<u32>,
    bytes: Vec<u8>,
}

impl OwnedPayloads {
    /// Of a plan, no more than its filled part, and of all payloads that it speaks of.
    pub(crate) fn new(plan: Vec<u32>, bytes: Vec<u8>) -> OwnedPayloads {
        OwnedPayloads { plan, bytes }
    }

    /// The payloads, in order.
    pub fn iter(&self) -> Payloads<'_> {
        Payloads::new(&self.plan, &self.bytes)
    }

    /// The payload of packet k, if there is one.
    pub fn get(&self, k: usize) -> Option<&[u8]> {
        self.iter().nth(k)
    }

    /// How many packets there are.
    pub fn len(&self) -> usize {
        self.iter().len()
    }

    /// Whether there are no packets.
    pub fn is_empty(&self) -> bool {
        self.plan.is_empty()
    }

    /// All payloads, one right after the other.
    pub fn as_bytes(&self) -> &[u8] {
        &self.bytes
    }
}

impl<'a> IntoIterator for &'a OwnedPayloads {
    type Item = &'a [u8];
    type IntoIter = Payloads<'a>;

    fn into_iter(self) -> Payloads<'a> {
        self.iter()
    }
}

impl Index<usize> for OwnedPayloads {
    type Output = [u8];

    fn index(&self, k: usize) -> &[u8] {
        self.get(k).expect("no such packet")
    }
}

/// Equal if the payloads are.
impl PartialEq for OwnedPayloads {
    fn eq(&self, other: &OwnedPayloads) -> bool {
        self.iter().eq(other)
    }
}

impl Eq for OwnedPayloads {}

impl fmt::Debug for OwnedPayloads {
    fn fmt(&self, f: &mut fmt::Formatter<'_>) -> fmt::Result {
        self.iter().fmt(f)
    }
}
