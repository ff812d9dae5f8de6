//! Replays the fixed list of answers that `crates/vectors` replays; the expected answers come from `compare/rules.py`.
mod common;
use av1rtp::lent::{self, Planned, OBU_NUMBERS, PLAN_NUMBERS};
use av1rtp::{Obu, PacketMetadata, Reason, Refusal};
use common::{ample, apart, hex, repository, unhex};
use std::fs::read_to_string;

/// What stands in a lent list or output before a call.
const OLD_NUMBER: u32 = 0xDEAD_BEEF;
const OLD_BYTE: u8 = 0xA5;

struct Case {
    mtu: usize,
    obus: usize,
    plan: usize,
    output: usize,
    unit: Vec<u8>,
}

/// A line: mtu, numbers of the OBU list and of the plan list, bytes of the output, and the unit in hexadecimal or `-`; `*` and a
/// number repeat its last byte until it has so many.
fn case_of(line: &str) -> Case {
    let words: Vec<&str> = line.split(' ').collect();
    let [mtu, obus, plan, output] = [0, 1, 2, 3].map(|i| words[i].parse().unwrap());
    let (text, length) = match words[4].split_once('*') {
        Some((text, length)) => (text, Some(length.parse().unwrap())),
        None => (words[4], None),
    };
    let mut unit = if text == "-" { Vec::new() } else { unhex(text) };
    if let Some(length) = length {
        unit.resize(length, *unit.last().unwrap());
    }
    Case { mtu, obus, plan, output, unit }
}

/// The records of a list, each of so many numbers.
fn records(list: &[u32], numbers: usize) -> String {
    let record = |r: &[u32]| r.iter().map(u32::to_string).collect::<Vec<_>>().join(",");
    list.chunks(numbers).map(record).collect::<Vec<_>>().join(";")
}

/// The records of the case's OBU list and plan.
fn filled_lists(case: &Case) -> (Vec<u32>, Vec<u32>) {
    let plan = match av1rtp::plan(&case.unit, case.mtu) {
        Ok(plan) => plan,
        Err(_) => return Default::default(),
    };
    let obu = |o: &Obu| [o.header as usize, o.extension as usize, o.start, o.length, o.size];
    let packet = |p: &PacketMetadata| {
        let (first, elements, offset) = (p.first_obu_index, p.num_obu_elements, p.first_obu_offset);
        [first, elements, offset, p.last_obu_size, p.packet_size, p.payload_start]
    };
    let number = |n| n as u32;
    (
        plan.obus.iter().flat_map(obu).map(number).collect(),
        plan.packets.iter().flat_map(packet).map(number).collect(),
    )
}

/// The plan call's answer, and whether both lists are as the rules say (C5, C6).
fn planned_by(case: &Case, obus: &mut [u32], plan: &mut [u32]) -> Result<Planned, Refusal> {
    let answer = lent::plan(case.mtu, &case.unit, obus, plan);
    let (listed, recorded) = match answer {
        Ok(planned) => (OBU_NUMBERS * planned.obus, PLAN_NUMBERS * planned.packets),
        Err(refusal) => {
            let filled = obus.iter().position(|&n| n == OLD_NUMBER).unwrap_or(obus.len());
            (if refusal.number() == 9 { filled } else { 0 }, 0)
        }
    };
    let (all_obus, all_packets) = filled_lists(case);
    assert!(obus[..listed] == all_obus[..] || listed == 0);
    assert!(plan[..recorded] == all_packets[..] || recorded == 0);
    assert!(obus[listed..].iter().all(|&n| n == OLD_NUMBER));
    assert!(plan[recorded..].iter().all(|&n| n == OLD_NUMBER));
    answer
}

/// Packet after packet, each written into an output of the case's length of its own: the payloads, or the first refusal. Behind what is
/// written the output stays as it was (C7).
fn written_by(case: &Case, obus: &[u32], plan: &[u32], packets: usize) -> Result<Vec<Vec<u8>>, Refusal> {
    let payload = |k: usize| {
        let mut out = vec![OLD_BYTE; case.output];
        let answer = lent::write_packet(case.mtu, &case.unit, obus, plan, k, &mut out);
        let length = plan[k * PLAN_NUMBERS + 4] as usize + 1;
        assert_eq!(
            answer.map_err(|refusal| refusal.number()),
            if length <= out.len() { Ok(length) } else { Err(10) }
        );
        assert!(out[answer.unwrap_or(0)..].iter().all(|&b| b == OLD_BYTE));
        answer.map(|bytes| out[..bytes].to_vec())
    };
    (0..packets).map(payload).collect()
}

/// The case's answer as a line.
fn answer_to(case: &Case) -> String {
    let mut obus = vec![OLD_NUMBER; case.obus];
    let mut plan = vec![OLD_NUMBER; case.plan];
    let answer = planned_by(case, &mut obus, &mut plan)
        .and_then(|planned| Ok((planned, written_by(case, &obus, &plan, planned.packets)?)));
    let (planned, payloads) = match answer {
        Ok(answer) => answer,
        Err(refusal) => return format!("refused {} {}", refusal.number(), refusal.offset()),
    };
    let (obus, plan) = (&obus[..OBU_NUMBERS * planned.obus], &plan[..PLAN_NUMBERS * planned.packets]);
    let mut line = format!("obus {}", planned.obus);
    if planned.obus > 0 {
        line += &format!(" {}", records(obus, OBU_NUMBERS));
    }
    line += &format!(" packets {}", planned.packets);
    if planned.packets > 0 {
        let header = |k| format!("{:02X}", lent::header(&case.unit, obus, plan, k).unwrap());
        let headers: Vec<String> = (0..planned.packets).map(header).collect();
        let payloads: Vec<String> = payloads.iter().map(|payload| hex(payload)).collect();
        let plan = records(plan, PLAN_NUMBERS);
        line += &format!(" {plan} headers {} payloads {}", headers.join(","), payloads.join(","));
    }
    line
}

fn cases() -> Vec<(Case, String)> {
    let given = read_to_string(repository("crates/vectors/stdin")).unwrap();
    let wanted = read_to_string(repository("crates/vectors/stdout")).unwrap();
    assert_eq!(given.lines().count(), wanted.lines().count());
    given.lines().map(case_of).zip(wanted.lines().map(str::to_string)).collect()
}

#[test]
fn fixed_list() {
    let cases = cases();
    assert!(cases.len() > 1000);
    for (i, (case, wanted)) in cases.iter().enumerate() {
        assert!(answer_to(case) == *wanted, "line {}", i + 1);
    }
}

/// With lists that grow, the payloads are those of ample lists, and 8, 9 and 10 are never given. A run is its packets one after the other,
/// and a planned unit writes the same ones.
#[test]
fn fixed_list_with_lists_that_grow() {
    let mut payloader = av1rtp::Payloader::new();
    for (i, (case, _)) in cases().iter().enumerate() {
        let wanted = ample(&case.unit, case.mtu);
        let owned = av1rtp::payload(&case.unit, case.mtu);
        assert!(owned.clone().map(|payloads| apart(&payloads)) == wanted, "line {}", i + 1);
        assert!(payloader.payload(case.mtu, &case.unit).map(apart) == wanted, "line {}", i + 1);
        match &wanted {
            Ok(payloads) => one_by_one(&mut payloader, case, payloads),
            Err(refusal) => assert_eq!(payloader.plan_unit(case.mtu, &case.unit).unwrap_err(), *refusal),
        }
        assert!(owned.map(|payloads| payloads.as_bytes().to_vec()) == wanted.clone().map(|w| w.concat()));
        match (av1rtp::plan(&case.unit, case.mtu), &wanted) {
            (Ok(plan), Ok(payloads)) => {
                let mut end = 0;
                let places = payloads.iter().map(|payload| {
                    end += payload.len();
                    (end - payload.len(), payload.len())
                });
                let planned = plan.packets.iter().map(|p| (p.payload_start, p.packet_size + 1));
                assert!(planned.eq(places), "line {}", i + 1);
                assert_eq!(av1rtp::list(&case.unit), Ok(plan.obus));
            }
            (Err(refusal), Err(wanted)) => assert_eq!(refusal, *wanted),
            (plan, _) => panic!("line {}: {plan:?}", i + 1),
        }
    }
}

/// A planned unit writes these payloads: the last packet first, each into a buffer that just holds it. Every call walks over the plan,
/// so of more than 500 packets the first and the last 20 are written.
fn one_by_one(payloader: &mut av1rtp::Payloader, case: &Case, payloads: &[Vec<u8>]) {
    let planned = payloader.plan_unit(case.mtu, &case.unit).unwrap();
    let packets = planned.packets();
    assert_eq!(packets, payloads.len());
    for k in (0..packets).rev().filter(|k| packets <= 500 || *k < 20 || packets - k <= 20) {
        let mut just = vec![OLD_BYTE; payloads[k].len()];
        assert_eq!(planned.write_packet(k, &mut just[1..]).unwrap_err().reason(), Reason::NoRoomForPayloads);
        assert!(just.iter().all(|&b| b == OLD_BYTE));
        assert_eq!(planned.write_packet(k, &mut just), Ok(just.len()));
        assert!(just == payloads[k]);
    }
    assert_eq!(planned.write_packet(packets, &mut []).unwrap_err().reason(), Reason::NoUsablePacket);
}

#[test]
fn header_without_a_packet() {
    let reason = |obus: &[u32], plan: &[u32], k| lent::header(&[], obus, plan, k).unwrap_err().reason();
    assert_eq!(reason(&[], &[], 0), Reason::NoUsablePacket);
    assert_eq!(reason(&[48, 0, 0, 0, 1], &[0, 1, 0, 1, 1, 0], 1), Reason::NoUsablePacket);
    assert_eq!(reason(&[48, 0, 0, 0, 1], &[0, 1, 0, 1, 1], 0), Reason::NoUsablePacket);
    assert_eq!(reason(&[48, 0, 0, 0, 1], &[0, 0, 0, 1, 1, 0], 0), Reason::NoUsablePacket);
    assert_eq!(reason(&[48, 0, 0, 0, 1], &[u32::MAX, u32::MAX, 0, 1, 1, 0], 0), Reason::NoUsablePacket);
}

/// Payload start, packet size and 1 add up to 4,294,967,295 at the most, in the record asked for; what others have does not count.
#[test]
fn header_of_a_payload_that_ends_too_far() {
    const MOST: u32 = u32::MAX;
    let header = |packet_size, payload_start| {
        let plan = [0, 1, 0, 1, 1, MOST, 0, 1, 0, 1, packet_size, payload_start];
        lent::header(&[], &[48, 0, 0, 0, 1], &plan, 1).map_err(|refusal| refusal.reason())
    };
    for (packet_size, payload_start) in [(1, MOST - 2), (0, MOST - 1), (MOST - 1, 0)] {
        assert_eq!(header(packet_size, payload_start), Ok(0x10));
    }
    for (packet_size, payload_start) in [(1, MOST - 1), (0, MOST), (MOST, 0), (MOST, MOST)] {
        assert_eq!(header(packet_size, payload_start), Err(Reason::NoUsablePacket));
    }
}

/// An OBU record may end where the unit does and no further, also one that packet k does not use.
#[test]
fn header_of_records_outside_the_unit() {
    const MOST: u32 = u32::MAX;
    let header = |start, length, k| {
        let obus = [48, 0, 0, 6, 7, 48, 0, start, length, 2];
        let plan = [0, 1, 0, 7, 7, 0, 1, 1, 0, 2, 2, 8];
        lent::header(&[0; 6], &obus, &plan, k).map_err(|refusal| refusal.reason())
    };
    for k in [0, 1] {
        for (start, length) in [(5, 1), (6, 0), (0, 6)] {
            assert_eq!(header(start, length, k), Ok(0x10));
        }
        for (start, length) in [(5, 2), (6, 1), (7, 0), (0, 7), (MOST, 1), (MOST, MOST)] {
            assert_eq!(header(start, length, k), Err(Reason::NoUsablePacket));
        }
    }
}

/// A record behind the filled part counts, for N too.
#[test]
fn header_from_the_filled_part() {
    let unit = [0x0A, 0x01, 0x00, 0x32, 0x01, 0x10];
    let (mut obus, mut plan) = ([OLD_NUMBER; 3 * OBU_NUMBERS], [OLD_NUMBER; PLAN_NUMBERS]);
    assert!(lent::plan(20, &unit, &mut obus, &mut plan).is_ok());
    assert_eq!(lent::header(&unit, &obus[..10], &plan, 0), Ok(0x28));
    assert_eq!(lent::header(&unit, &obus, &plan, 0).unwrap_err().reason(), Reason::NoUsablePacket);
    obus[5..].copy_from_slice(&[0x2A, 0, 5, 1, 2, 0x32, 0, 5, 1, 2]);
    assert_eq!(lent::header(&unit, &obus[..10], &plan, 0), Ok(0x20));
    assert_eq!(lent::header(&unit, &obus, &plan, 0), Ok(0x28));
}

/// Of a record's header and extension byte the low 8 bits count.
#[test]
fn header_from_numbers_above_a_byte() {
    let new = |sequence, frame, extension| {
        let obus = [sequence, 0, 2, 1, 2, frame, extension, 5, 1, 2];
        let header = lent::header(&[0x0A, 0x01, 0x00, 0x32, 0x01, 0x10], &obus, &[0, 1, 0, 2, 2, 0], 0);
        header.unwrap() == 0x18
    };
    assert!(new(0x0A, 0x32, 0) && new(0xFFFF_FF0A, 0xFFFF_FF32, 0));
    assert!(new(0x0A, 0x36, 0xFFFF_FF1F) && !new(0x0A, 0x36, 0x120));
    assert!(new(0x0A, 0x432, 0x20) && !new(0x0A, 0x436, 0x20));
    assert!(!new(0x800, 0x32, 0) && !new(0x0A, 0x3000, 0));
}
