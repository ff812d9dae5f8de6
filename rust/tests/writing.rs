//! The writing calls: runs of packets, lists that are not the unit's, and the payloads as parts of one buffer.
mod common;
use av1rtp::lent::{self, OBU_NUMBERS, PLAN_NUMBERS};
use av1rtp::Reason;
use common::{ample, Dice};

/// What stands behind the filled part of a list, and in an output before a call.
const OLD_NUMBER: u32 = 0xDEAD_BEEF;
const OLD_BYTE: u8 = 0xA5;

/// Runs of packets of random units, picked at random.
#[test]
fn runs_of_packets() {
    let mut dice = Dice(4);
    let mut runs = 0;
    for _ in 0..300 {
        let (unit, mtu) = (dice.unit(), dice.mtu());
        let payloads = ample(&unit, mtu).unwrap();
        let mut obus = vec![0; OBU_NUMBERS * unit.len()];
        let mut plan = vec![0; PLAN_NUMBERS * unit.len()];
        let planned = lent::plan(mtu, &unit, &mut obus, &mut plan).unwrap();
        // what stands behind the unit's own records is not looked at
        obus[OBU_NUMBERS * planned.obus..].fill(OLD_NUMBER);
        plan[PLAN_NUMBERS * planned.packets..].fill(OLD_NUMBER);
        assert_eq!(payloads.len(), planned.packets);
        for _ in 0..20 {
            let first = dice.below(payloads.len() + 2);
            let count = dice.below(payloads.len() + 2);
            let last = if count == 0 { Some(0..0) } else { Some(first..first + count) };
            let wanted = last.filter(|run| run.end <= payloads.len()).map(|run| payloads[run].concat());
            let length = wanted.as_ref().map_or(0, Vec::len);
            let mut out = vec![OLD_BYTE; length + 3];
            let short = length.saturating_sub(1);
            let answer = lent::write_packets(mtu, &unit, &obus, &plan, first, count, &mut out);
            match wanted {
                Some(wanted) => {
                    assert_eq!(answer, Ok(length));
                    assert!(out[..length] == wanted && out[length..] == [OLD_BYTE; 3]);
                    out.fill(OLD_BYTE);
                    let answer =
                        lent::write_packets(mtu, &unit, &obus, &plan, first, count, &mut out[..short]);
                    assert_eq!(answer.map_err(|r| r.number()), if length == 0 { Ok(0) } else { Err(10) });
                }
                None => assert_eq!(answer.unwrap_err().reason(), Reason::NoUsablePacket),
            }
            assert!(length == 0 || out.iter().all(|&b| b == OLD_BYTE));
            runs += usize::from(count > 1);
        }
    }
    assert!(runs > 1000);
}

/// A list or plan with any number changed, or with a record less, is not the unit's; nothing is written.
#[test]
fn lists_of_another_unit() {
    let mut dice = Dice(5);
    let mut changed = 0;
    for _ in 0..1000 {
        let (unit, mtu) = (dice.unit(), dice.mtu().max(3));
        let mut obus = vec![0; OBU_NUMBERS * unit.len()];
        let mut plan = vec![0; PLAN_NUMBERS * unit.len()];
        let planned = lent::plan(mtu, &unit, &mut obus, &mut plan).unwrap();
        if planned.packets == 0 {
            continue;
        }
        obus.truncate(OBU_NUMBERS * planned.obus);
        plan.truncate(PLAN_NUMBERS * planned.packets);
        let refused = |obus: &[u32], plan: &[u32]| {
            let mut out = vec![OLD_BYTE; mtu];
            for k in [0, planned.packets - 1, planned.packets] {
                let one = lent::write_packet(mtu, &unit, obus, plan, k, &mut out);
                let run = lent::write_packets(mtu, &unit, obus, plan, k, 0, &mut out);
                assert_eq!(one.unwrap_err().reason(), Reason::ListsDiffer);
                assert_eq!(run.unwrap_err(), one.unwrap_err());
                assert_eq!(one.unwrap_err().offset(), 0);
            }
            assert!(out.iter().all(|&b| b == OLD_BYTE));
        };
        refused(&obus[..obus.len() - 1], &plan);
        refused(&obus, &plan[..plan.len() - 1]);
        let (i, j, bit) = (dice.below(obus.len()), dice.below(plan.len()), dice.below(32));
        obus[i] ^= 1 << bit;
        refused(&obus, &plan);
        obus[i] ^= 1 << bit;
        plan[j] ^= 1 << bit;
        refused(&obus, &plan);
        changed += 1;
    }
    assert!(changed > 500);
}

/// The payloads of one buffer, from both ends, counted and skipped.
#[test]
fn payloads_from_both_ends() {
    let unit = [&[0x32, 0x64][..], &[7; 100]].concat();
    let wanted = ample(&unit, 10).unwrap();
    assert!(wanted.len() > 5);
    let mut payloader = av1rtp::Payloader::new();
    let payloads = payloader.payload(10, &unit).unwrap();
    assert_eq!(payloads.len(), wanted.len());
    assert!(payloads.clone().eq(&wanted) && payloads.clone().rev().eq(wanted.iter().rev()));
    let mut ends = payloads.clone();
    assert_eq!(ends.next_back(), wanted.last().map(Vec::as_slice));
    assert_eq!(ends.next(), Some(&wanted[0][..]));
    assert_eq!(ends.nth(1), Some(&wanted[2][..]));
    assert_eq!(ends.len(), wanted.len() - 4);
    assert_eq!(ends.nth(wanted.len()), None);
    assert_eq!((ends.next(), ends.next_back()), (None, None));
    let owned = av1rtp::payload(&unit, 10).unwrap();
    assert_eq!(owned.get(1), Some(&wanted[1][..]));
    assert_eq!(owned.get(wanted.len()), None);
    assert!(owned == av1rtp::payload(&unit, 10).unwrap() && owned != av1rtp::payload(&unit, 11).unwrap());
    assert!(!owned.is_empty() && av1rtp::payload(&unit, 2).unwrap().is_empty());
}
