//! Sending: a unit to payloads, first the plan and then the packets. The lists are sized by a guess and grown on refusals 8 and 9,
//! within the proved bounds: a unit has no more kept OBUs than bytes, and its plan no more records than the kept OBUs have bytes. The
//! output is sized by the plan.
use crate::lent::{self, Listed, Planned, OBU_NUMBERS, PLAN_NUMBERS};
use crate::payloads::{bytes_of, OwnedPayloads, Payloads};
use crate::{Reason, Refusal, LEAST_MTU, MTU_LIMIT, UNIT_LIMIT};

/// A kept OBU of a unit. For inspection: no position goes into an export.
#[derive(Clone, Copy, Debug, PartialEq, Eq)]
pub struct Obu {
    /// The header byte, as it stands in the unit.
    pub header: u8,
    /// The extension byte, or 0.
    pub extension: u8,
    /// Where in the unit the payload starts.
    pub start: usize,
    /// The length of the payload.
    pub length: usize,
    /// Header bytes and payload, without the size field.
    pub size: usize,
}

/// A packet of a plan, under the names of the crate rtp, and where its payload starts. For inspection: no position goes into an
/// export.
#[derive(Clone, Copy, Debug, PartialEq, Eq)]
pub struct PacketMetadata {
    /// The OBU of the first element.
    pub first_obu_index: usize,
    /// How many elements there are.
    pub num_obu_elements: usize,
    /// Where in its OBU the first element starts.
    pub first_obu_offset: usize,
    /// The length of the last element.
    pub last_obu_size: usize,
    /// The payload without its aggregation header byte.
    pub packet_size: usize,
    /// Where the payload starts if all payloads of the unit stand one after the other: the lengths of those before it, added up.
    pub payload_start: usize,
}

/// Kept OBUs and packets of a unit.
#[derive(Clone, Debug, Default, PartialEq, Eq)]
pub struct Plan {
    /// The kept OBUs, in order.
    pub obus: Vec<Obu>,
    /// The packets, in order.
    pub packets: Vec<PacketMetadata>,
}

/// Makes payloads, and keeps its lists and output from unit to unit, so that nothing is allocated or cleared twice.
///
/// [`payload`](Payloader::payload) writes all packets of a unit into its own output and lends their payloads. A sender that has room
/// for one packet goes by [`plan_unit`](Payloader::plan_unit), and writes them one by one into a buffer of its own.
#[derive(Clone, Debug, Default)]
pub struct Payloader {
    obus: Vec<u32>,
    plan: Vec<u32>,
    out: Vec<u8>,
}

/// A unit that is planned, and whose packets can be written: any of them, in any order. It borrows the unit, so that list and plan
/// stay its own.
#[derive(Clone, Copy, Debug)]
pub struct PlannedUnit<'a> {
    mtu: usize,
    unit: &'a [u8],
    obus: &'a [u32],
    plan: &'a [u32],
}

impl PlannedUnit<'_> {
    /// How many packets there are.
    pub fn packets(&self) -> usize {
        self.plan.len() / PLAN_NUMBERS
    }

    /// Writes the payload of packet k, counted from 0, first in `out`, and gives its length. An output of `mtu` bytes always does.
    ///
    /// Every call walks over unit and records once more; [`Payloader::payload`] does so once for all packets.
    ///
    /// Refusals 11, if there is no packet k, and 10, if it is longer than the output; a refusal writes nothing.
    pub fn write_packet(&self, k: usize, out: &mut [u8]) -> Result<usize, Refusal> {
        lent::write_packet(self.mtu, self.unit, self.obus, self.plan, k, out)
    }
}

/// Records that a list begins with.
const FIRST_RECORDS: usize = 16;

impl Payloader {
    /// A payloader that has allocated nothing yet.
    pub fn new() -> Payloader {
        Payloader::default()
    }

    /// The payloads of a unit's packets, each of at most `mtu` bytes. There are none if no OBU is kept or the mtu is below 3. They are
    /// parts of one buffer, which the next call writes again.
    ///
    /// Refusals 1 to 7.
    ///
    /// ```
    /// let mut payloader = av1rtp::Payloader::new();
    /// let mut payloads = payloader.payload(5, &[0x0A, 0x01, 0x7F, 0x32, 0x00])?;
    /// assert_eq!(payloads.len(), 2);
    /// assert_eq!(payloads.next(), Some(&[0x10, 0x08, 0x7F][..]));
    /// assert_eq!(payloads.next(), Some(&[0x10, 0x30][..]));
    /// # Ok::<(), av1rtp::Refusal>(())
    /// ```
    pub fn payload(&mut self, mtu: usize, unit: &[u8]) -> Result<Payloads<'_>, Refusal> {
        let packets = self.fill(mtu, unit)?.packets;
        let records = packets * PLAN_NUMBERS;
        at_least(&mut self.out, bytes_of(&self.plan[..records]));
        let bytes = lent::write_packets(mtu, unit, &self.obus, &self.plan, 0, packets, &mut self.out)?;
        Ok(Payloads::new(&self.plan[..records], &self.out[..bytes]))
    }

    /// Plans a unit, for a sender that writes packet after packet into a buffer of its own. Refusals 1 to 7.
    ///
    /// ```
    /// let unit = [0x0A, 0x01, 0x7F, 0x32, 0x00];
    /// let mut payloader = av1rtp::Payloader::new();
    /// let mut packet = [0; 5];
    /// let planned = payloader.plan_unit(5, &unit)?;
    /// assert_eq!(planned.packets(), 2);
    /// let length = planned.write_packet(1, &mut packet)?;
    /// assert_eq!(packet[..length], [0x10, 0x30]);
    /// # Ok::<(), av1rtp::Refusal>(())
    /// ```
    pub fn plan_unit<'a>(&'a mut self, mtu: usize, unit: &'a [u8]) -> Result<PlannedUnit<'a>, Refusal> {
        let filled = self.fill(mtu, unit)?;
        let obus = &self.obus[..filled.obus * OBU_NUMBERS];
        let plan = &self.plan[..filled.packets * PLAN_NUMBERS];
        Ok(PlannedUnit { mtu, unit, obus, plan })
    }

    /// The kept OBUs of a unit. Refusals 2 to 7.
    pub fn list(&mut self, unit: &[u8]) -> Result<Vec<Obu>, Refusal> {
        let listed = self.fill_list(unit)?;
        Ok(self.obus(listed.obus))
    }

    /// How many OBUs of a unit, dropped ones too, have a padded size field, that is one longer than its value needs. Refusals 2 to 7.
    pub fn padded(&mut self, unit: &[u8]) -> Result<usize, Refusal> {
        Ok(self.fill_list(unit)?.padded)
    }

    /// The kept OBUs of a unit, and the plan of its packets, to be looked at. Refusals 1 to 7.
    pub fn plan(&mut self, mtu: usize, unit: &[u8]) -> Result<Plan, Refusal> {
        let filled = self.fill(mtu, unit)?;
        Ok(Plan { obus: self.obus(filled.obus), packets: self.packets(filled.packets) })
    }

    /// Fills the list.
    fn fill_list(&mut self, unit: &[u8]) -> Result<Listed, Refusal> {
        self.begin(0, unit);
        loop {
            match lent::list(unit, &mut self.obus) {
                Ok(listed) => return Ok(listed),
                Err(refusal) => self.make_room(refusal, unit)?,
            }
        }
    }

    /// Fills list and plan.
    fn fill(&mut self, mtu: usize, unit: &[u8]) -> Result<Planned, Refusal> {
        self.begin(mtu, unit);
        loop {
            match lent::plan(mtu, unit, &mut self.obus, &mut self.plan) {
                Ok(filled) => return Ok(filled),
                Err(refusal) => self.make_room(refusal, unit)?,
            }
        }
    }

    /// Lists for what most units need: packets that are filled, and a few more. None where nothing will be listed.
    fn begin(&mut self, mtu: usize, unit: &[u8]) {
        let bytes = unit.len();
        if bytes > UNIT_LIMIT || mtu > MTU_LIMIT {
            return;
        }
        at_least(&mut self.obus, FIRST_RECORDS.min(bytes) * OBU_NUMBERS);
        if mtu >= LEAST_MTU {
            let packets = (bytes / (mtu - 1) + FIRST_RECORDS).min(bytes);
            at_least(&mut self.plan, packets * PLAN_NUMBERS);
        }
    }

    /// What refusals 8 and 9 ask for; any other stands.
    fn make_room(&mut self, refusal: Refusal, unit: &[u8]) -> Result<(), Refusal> {
        let records = unit.len();
        let grown = match refusal.reason() {
            Reason::ObuListFull => double(&mut self.obus, OBU_NUMBERS, records),
            Reason::PlanListFull => double(&mut self.plan, PLAN_NUMBERS, records),
            _ => false,
        };
        if grown {
            Ok(())
        } else {
            Err(refusal)
        }
    }

    fn obus(&self, n: usize) -> Vec<Obu> {
        let records = self.obus[..n * OBU_NUMBERS].chunks_exact(OBU_NUMBERS);
        records
            .map(|r| Obu {
                header: r[0] as u8,
                extension: r[1] as u8,
                start: r[2] as usize,
                length: r[3] as usize,
                size: r[4] as usize,
            })
            .collect()
    }

    fn packets(&self, n: usize) -> Vec<PacketMetadata> {
        let records = self.plan[..n * PLAN_NUMBERS].chunks_exact(PLAN_NUMBERS);
        records
            .map(|r| PacketMetadata {
                first_obu_index: r[0] as usize,
                num_obu_elements: r[1] as usize,
                first_obu_offset: r[2] as usize,
                last_obu_size: r[3] as usize,
                packet_size: r[4] as usize,
                payload_start: r[5] as usize,
            })
            .collect()
    }
}

/// Makes a list so long, if it is shorter. What it has stays, so that no part is cleared twice; the first time it comes cleared from
/// the allocator.
#[inline]
fn at_least<T: Clone + Default>(list: &mut Vec<T>, length: usize) {
    if list.len() < length {
        grow(list, length);
    }
}

#[cold]
fn grow<T: Clone + Default>(list: &mut Vec<T>, length: usize) {
    if list.is_empty() {
        *list = vec![T::default(); length];
    } else {
        list.resize(length, T::default());
    }
}

/// Twice as long, or as long as can be needed, which is so many records of so many numbers; whether it grew.
fn double(list: &mut Vec<u32>, numbers: usize, records: usize) -> bool {
    let before = list.len();
    at_least(list, (2 * before).max(FIRST_RECORDS * numbers).min(records * numbers));
    list.len() > before
}

/// The payloads of a unit's packets, each of at most `mtu` bytes: [`Payloader::payload`] for a single unit.
///
/// ```
/// let unit = [0x0A, 0x01, 0x7F, 0x32, 0x00];
/// let payloads = av1rtp::payload(&unit, 5)?;
/// assert_eq!(payloads.len(), 2);
/// assert_eq!(payloads[0], [0x10, 0x08, 0x7F]);
/// assert_eq!(payloads[1], [0x10, 0x30]);
///
/// let refusal = av1rtp::payload(&[0x32, 0x02, 0xA1], 20).unwrap_err();
/// assert_eq!(refusal.to_string(), "refused 7 at 0: an OBU's payload runs past the unit");
/// # Ok::<(), av1rtp::Refusal>(())
/// ```
pub fn payload(unit: &[u8], mtu: usize) -> Result<OwnedPayloads, Refusal> {
    let mut payloader = Payloader::new();
    let packets = payloader.payload(mtu, unit)?.len();
    let Payloader { mut plan, out, .. } = payloader;
    plan.truncate(packets * PLAN_NUMBERS);
    Ok(OwnedPayloads::new(plan, out))
}

/// The kept OBUs of a unit: [`Payloader::list`] for a single unit.
pub fn list(unit: &[u8]) -> Result<Vec<Obu>, Refusal> {
    Payloader::new().list(unit)
}

/// How many size fields of a unit are padded: [`Payloader::padded`] for a single unit.
///
/// ```
/// assert_eq!(av1rtp::padded(&[0x32, 0x80, 0x00, 0x12, 0x81, 0x00, 0x01])?, 2);   // a frame, and a temporal delimiter
/// # Ok::<(), av1rtp::Refusal>(())
/// ```
pub fn padded(unit: &[u8]) -> Result<usize, Refusal> {
    Payloader::new().padded(unit)
}

/// The kept OBUs of a unit and the plan of its packets: [`Payloader::plan`] for a single unit.
pub fn plan(unit: &[u8], mtu: usize) -> Result<Plan, Refusal> {
    Payloader::new().plan(mtu, unit)
}
