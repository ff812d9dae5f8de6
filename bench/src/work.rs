//! One piece of work: a unit and an mtu, with everything that its sides are lent, so that a call allocates nothing of its own accord.
use crate::codecs::av1::Av1Payloader;
use crate::packetizer::Payloader;
use av1rtp::lent::{self, State, OBU_NUMBERS, PLAN_NUMBERS};
use bytes::Bytes;
use std::hint::black_box;

/// The size field of a value, shortest form.
fn size_field(mut value: usize) -> Vec<u8> {
    let mut field = vec![];
    while value >= 128 {
        field.push(value as u8 | 128);
        value >>= 7;
    }
    field.push(value as u8);
    field
}

/// A unit of so many bytes: OBUs of type 6, as equal as they can be, each with its size field, and bytes that look like noise.
fn unit_of(size: usize, obus: usize) -> Vec<u8> {
    let (mut unit, mut noise) = (Vec::with_capacity(size), 1u64);
    for i in 0..obus {
        let end = size * (i + 1) / obus;
        unit.push(0x32);
        let left = end - unit.len();
        let body = (1..4).map(|f| left - f).find(|&body| size_field(body).len() == left - body).unwrap();
        unit.extend(size_field(body));
        while unit.len() < end {
            noise = noise.wrapping_mul(6364136223846793005).wrapping_add(1442695040888963407);
            unit.push((noise >> 56) as u8);
        }
    }
    unit
}

pub struct Work {
    mtu: usize,
    unit: Bytes,
    obus: Vec<u32>,
    plan: Vec<u32>,
    out: Vec<u8>,
    payloader: av1rtp::Payloader,
    payloads: Vec<Vec<u8>>,
    store: Vec<u8>,
    back: Vec<u8>,
}

impl Work {
    /// The work, after a look that all three sides give the same packets, but for the lengths of 128 or more that the crate writes one
    /// byte longer, and that the receive call gives the unit back.
    pub fn new(size: usize, obus: usize, mtu: usize) -> Self {
        let unit = Bytes::from(unit_of(size, obus));
        let theirs = Av1Payloader {}.payload(mtu, &unit).unwrap();
        let mut work = Work {
            mtu,
            obus: vec![0; obus * OBU_NUMBERS],
            plan: vec![0; theirs.len() * PLAN_NUMBERS],
            out: vec![0; theirs.iter().map(|p| p.len()).sum()],
            payloader: av1rtp::Payloader::new(),
            payloads: vec![],
            store: vec![0; unit.len()],
            back: vec![0; unit.len()],
            unit,
        };
        work.ours();
        for (k, (their, record)) in theirs.iter().zip(work.plan.chunks(PLAN_NUMBERS)).enumerate() {
            let (packet_size, payload_start) = (record[4] as usize, record[5] as usize);
            let our = &work.out[payload_start..payload_start + packet_size + 1];
            assert!(our == their || our.len() < their.len(), "payload {k} differs");
            work.payloads.push(our.to_vec());
        }
        let safe = work.payloader.payload(mtu, &work.unit).unwrap();
        assert!(safe.eq(&work.payloads), "the safe crate's payloads differ");
        work.back();
        assert!(work.back[..work.unit.len()] == work.unit[..], "what comes back is not the unit");
        work
    }

    /// Our plan call, and the call that writes all packets.
    pub fn ours(&mut self) {
        let Work { mtu, unit, obus, plan, out, .. } = self;
        let packets = lent::plan(*mtu, unit, obus, plan).unwrap().packets;
        black_box(lent::write_packets(*mtu, unit, obus, plan, 0, packets, out).unwrap());
    }

    /// The same through the safe crate, which keeps the lists and the output, and a look at each payload.
    pub fn safe(&mut self) {
        for payload in self.payloader.payload(self.mtu, &self.unit).unwrap() {
            black_box(payload);
        }
    }

    /// The crate's, with the release of what it returns.
    pub fn theirs(&mut self) {
        black_box(Av1Payloader {}.payload(self.mtu, &self.unit).unwrap());
    }

    /// Every payload received, a call for each, and what goes out put one after the other.
    pub fn back(&mut self) {
        let (mut state, mut at) = (State::default(), 0);
        for (k, payload) in self.payloads.iter().enumerate() {
            let received = lent::receive(&mut state, k as u16, payload, &mut self.store, &mut self.back[at..]);
            at += received.unwrap().bytes;
        }
        black_box(&self.back);
    }

    /// The same payloads copied one after the other.
    pub fn copy(&mut self) {
        let mut at = 0;
        for payload in &self.payloads {
            let end = at + payload.len();
            self.out[at..end].copy_from_slice(black_box(payload));
            at = end;
        }
        black_box(&self.out);
    }
}
