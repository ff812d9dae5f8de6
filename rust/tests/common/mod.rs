//! What the tests share: hexadecimal, the OBUs that are to come out, and random units from a seed.
#![allow(dead_code)]
use av1rtp::{lent, Obu};

pub fn hex(bytes: &[u8]) -> String {
    bytes.iter().map(|b| format!("{b:02X}")).collect()
}

pub fn unhex(text: &str) -> Vec<u8> {
    (0..text.len()).step_by(2).map(|i| u8::from_str_radix(&text[i..i + 2], 16).unwrap()).collect()
}

/// A path from the repository's top.
pub fn repository(path: &str) -> std::path::PathBuf {
    std::path::Path::new(env!("CARGO_MANIFEST_DIR")).join("..").join(path)
}

/// The shortest size field of a value.
pub fn leb128(mut value: usize) -> Vec<u8> {
    let mut field = Vec::new();
    while value >= 128 {
        field.push(value as u8 | 128);
        value >>= 7;
    }
    field.push(value as u8);
    field
}

/// What a receiver hands out for a kept OBU: size bit set, extension byte, shortest size field, payload.
pub fn wire(unit: &[u8], obu: &Obu) -> Vec<u8> {
    let mut bytes = vec![obu.header | 2];
    if obu.header & 4 != 0 {
        bytes.push(obu.extension);
    }
    bytes.extend(leb128(obu.length));
    bytes.extend_from_slice(&unit[obu.start..obu.start + obu.length]);
    bytes
}

/// Payloads, each in a buffer of its own.
pub fn apart<'a>(payloads: impl IntoIterator<Item = &'a [u8]>) -> Vec<Vec<u8>> {
    payloads.into_iter().map(<[u8]>::to_vec).collect()
}

/// The payloads of a unit, with lists and an output that always do.
pub fn ample(unit: &[u8], mtu: usize) -> Result<Vec<Vec<u8>>, av1rtp::Refusal> {
    let records = unit.len().min(av1rtp::UNIT_LIMIT);
    let mut obus = vec![0; records * lent::OBU_NUMBERS];
    let mut plan = vec![0; records * lent::PLAN_NUMBERS];
    let mut out = vec![0; 5 * records];
    let packets = lent::plan(mtu, unit, &mut obus, &mut plan)?.packets;
    let bytes = lent::write_packets(mtu, unit, &obus, &plan, 0, packets, &mut out)?;
    let mut rest = &out[..bytes];
    let mut payloads = Vec::new();
    for record in plan.chunks(lent::PLAN_NUMBERS).take(packets) {
        assert_eq!(record[5] as usize, bytes - rest.len());
        let (payload, after) = rest.split_at(record[4] as usize + 1);
        payloads.push(payload.to_vec());
        rest = after;
    }
    assert!(rest.is_empty());
    Ok(payloads)
}

/// Random numbers (splitmix64): the same from the same seed.
pub struct Dice(pub u64);

impl Dice {
    pub fn next(&mut self) -> u64 {
        self.0 = self.0.wrapping_add(0x9E37_79B9_7F4A_7C15);
        let mut z = self.0;
        z = (z ^ (z >> 30)).wrapping_mul(0xBF58_476D_1CE4_E5B9);
        z = (z ^ (z >> 27)).wrapping_mul(0x94D0_49BB_1331_11EB);
        z ^ (z >> 31)
    }

    pub fn below(&mut self, n: usize) -> usize {
        (self.next() % n as u64) as usize
    }

    pub fn chance(&mut self, percent: usize) -> bool {
        self.below(100) < percent
    }

    pub fn pick(&mut self, from: &[usize]) -> usize {
        from[self.below(from.len())]
    }

    pub fn mtu(&mut self) -> usize {
        match self.below(10) {
            0 => self.pick(&[0, 1, 2, 3, 4, 1200, 9000, 16_390, 65_533, 65_534, 1_048_576]),
            1..=4 => 3 + self.below(10),
            _ => 3 + self.below(200),
        }
    }

    /// A length of an OBU's payload: mostly short, at times around 128 or 16,384.
    fn length(&mut self) -> usize {
        match self.below(40) {
            0..=24 => self.below(8),
            25..=33 => self.below(60),
            34..=36 => 120 + self.below(16),
            37..=38 => self.below(600),
            _ => 16_376 + self.below(16),
        }
    }

    /// An OBU: type, reserved bits, extension byte, size field that is padded now and then.
    fn obu(&mut self, size_bit: bool) -> Vec<u8> {
        let kind =
            if self.chance(12) { self.pick(&[2, 8, 15]) } else { self.pick(&[1, 3, 6, 6, 6, 4, 5, 7, 0, 9]) };
        let mut head = (kind << 3) as u8 | if size_bit { 2 } else { 0 };
        if self.chance(10) {
            head |= [0x80, 0x01, 0x81][self.below(3)];
        }
        let mut bytes = vec![head];
        if self.chance(20) {
            bytes[0] |= 4;
            bytes.push(self.next() as u8);
        }
        let length = self.length();
        if size_bit {
            let mut field = leb128(length);
            if self.chance(8) {
                let width = field.len() + self.below(9 - field.len());
                while field.len() < width {
                    *field.last_mut().unwrap() |= 128;
                    field.push(0);
                }
            }
            bytes.extend(field);
        }
        bytes.extend((0..length).map(|_| self.next() as u8));
        bytes
    }

    /// A unit of a few OBUs; the last at times without a size field.
    pub fn unit(&mut self) -> Vec<u8> {
        let n = self.below(9);
        (0..n)
            .flat_map(|i| {
                let size_bit = i + 1 < n || !self.chance(25);
                self.obu(size_bit)
            })
            .collect()
    }

    /// The same with a few bytes changed, or cut off.
    pub fn damaged(&mut self) -> Vec<u8> {
        let mut unit = self.unit();
        for _ in 0..1 + self.below(3) {
            if !unit.is_empty() {
                let at = self.below(unit.len());
                if self.chance(30) {
                    unit.truncate(at)
                } else {
                    unit[at] = self.next() as u8
                }
            }
        }
        unit
    }
}
