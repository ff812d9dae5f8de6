//! Compares with the crate rtp 0.17.2 itself at random: `compare/oracle` runs its AV1 files unchanged. `rust/test FOLDER` builds that
//! program and runs this test; without the program it is not run. AV1RTP_ORACLE names the program, AV1RTP_CASES how many units,
//! AV1RTP_SEED the seed.
mod common;
use av1rtp::{element, elements, lent, Reason};
use common::{hex, repository, Dice};
use std::collections::BTreeMap;
use std::io::{BufRead, BufReader, Write};
use std::process::{Command, Stdio};

/// Flag N.
const NEW: u8 = 8;

fn setting(name: &str, otherwise: u64) -> u64 {
    std::env::var(name).ok().map_or(otherwise, |text| text.parse().unwrap())
}

/// A length as the crate writes it: encoded, and then encoded once more.
fn crate_length(n: usize) -> Vec<u8> {
    let (mut encoded, mut rest) = (0usize, n);
    loop {
        encoded |= rest & 127;
        rest >>= 7;
        if rest == 0 {
            return common::leb128(encoded);
        }
        encoded = (encoded | 128) << 8;
    }
}

/// The crate's aggregation header of packet k: ours but for N, which it sets on packet 0 exactly if the first OBU is of type 1.
fn crate_header(ours: u8, obus: &[av1rtp::Obu], k: usize) -> u8 {
    ours & !NEW | if k == 0 && obus[0].header >> 3 & 15 == 1 { NEW } else { 0 }
}

/// Our payload with the crate's header and lengths.
fn crate_payload(payload: &[u8], header: u8) -> Vec<u8> {
    let n = elements(payload).unwrap();
    let mut bytes = vec![header];
    for k in 0..n {
        let part = element(payload, k);
        if payload[0] & 48 == 0 || k + 1 < n {
            bytes.extend(crate_length(part.len()));
        }
        bytes.extend_from_slice(part);
    }
    bytes
}

fn joined(parts: Vec<String>, between: &str) -> String {
    if parts.is_empty() {
        "-".to_string()
    } else {
        parts.join(between)
    }
}

/// The oracle's line for a unit that is accepted: OBUs, plan, headers, payloads. The crate's plan keeps no start of a payload. Our N is
/// not looked at here: `fixed_list` does that.
fn line_for(unit: &[u8], mtu: usize) -> Result<String, av1rtp::Refusal> {
    let payloads = av1rtp::payload(unit, mtu)?;
    let plan = av1rtp::plan(unit, mtu)?;
    // the crate keeps no start for an empty payload
    let start = |o: &av1rtp::Obu| if o.length == 0 { -1 } else { o.start as isize };
    let obus = plan
        .obus
        .iter()
        .map(|o| format!("{},{},{},{},{}", o.header, o.extension, start(o), o.length, o.size));
    let records = plan.packets.iter().map(|p| {
        let (first, n, offset) = (p.first_obu_index, p.num_obu_elements, p.first_obu_offset);
        format!("{first},{n},{offset},{},{}", p.last_obu_size, p.packet_size)
    });
    let mut flat_obus = vec![0; lent::OBU_NUMBERS * plan.obus.len()];
    let mut flat_plan = vec![0; lent::PLAN_NUMBERS * plan.packets.len()];
    lent::plan(mtu, unit, &mut flat_obus, &mut flat_plan)?;
    let headers: Vec<u8> = payloads
        .iter()
        .enumerate()
        .map(|(k, payload)| {
            assert_eq!(lent::header(unit, &flat_obus, &flat_plan, k), Ok(payload[0]));
            crate_header(payload[0], &plan.obus, k)
        })
        .collect();
    let written =
        payloads.iter().zip(&headers).map(|(payload, &header)| hex(&crate_payload(payload, header)));
    Ok(format!(
        "ok {} {} {} {}",
        joined(obus.collect(), ";"),
        joined(records.collect(), ";"),
        joined(headers.iter().map(|header| format!("{header:02X}")).collect(), ","),
        joined(written.collect(), ",")
    ))
}

#[test]
#[ignore = "needs the oracle: rust/test FOLDER"]
fn crate_at_random() {
    let program = std::env::var("AV1RTP_ORACLE").map_or(repository("target/compare/oracle"), Into::into);
    assert!(program.is_file(), "no oracle at {}", program.display());
    let (cases, seed) = (setting("AV1RTP_CASES", 20_000), setting("AV1RTP_SEED", 1));
    let mut dice = Dice(seed);
    let units: Vec<(usize, Vec<u8>)> =
        (0..cases).map(|i| (dice.mtu(), if i % 4 == 3 { dice.damaged() } else { dice.unit() })).collect();
    let mut oracle = Command::new(&program).stdin(Stdio::piped()).stdout(Stdio::piped()).spawn().unwrap();
    let mut to = oracle.stdin.take().unwrap();
    let lines: Vec<String> = units
        .iter()
        .map(|(mtu, unit)| format!("{mtu} {}\n", if unit.is_empty() { "-".to_string() } else { hex(unit) }))
        .collect();
    let writer =
        std::thread::spawn(move || lines.iter().for_each(|line| to.write_all(line.as_bytes()).unwrap()));
    let said: Vec<String> =
        BufReader::new(oracle.stdout.take().unwrap()).lines().map(Result::unwrap).collect();
    writer.join().unwrap();
    assert!(oracle.wait().unwrap().success());
    assert_eq!(said.len(), units.len());
    let mut seen = BTreeMap::new();
    for (i, ((mtu, unit), said)) in units.iter().zip(&said).enumerate() {
        let wanted = match line_for(unit, *mtu) {
            Ok(line) => line,
            Err(refusal) => {
                *seen.entry(refusal.number()).or_insert(0) += 1;
                match refusal.reason() {
                    Reason::ExtensionMissing => "err ErrPayloadTooSmallForObuExtensionHeader".to_string(),
                    Reason::SizeMissing => "err ErrPayloadTooSmallForObuPayloadSize".to_string(),
                    Reason::PayloadPastUnit => "panic obus".to_string(),
                    // docs/DIFFERENCES.md: the crate reads such a size field as another one
                    Reason::SizeUnfinished | Reason::SizeTooLarge => continue,
                    _ => panic!("{refusal}"),
                }
            }
        };
        assert!(*said == wanted, "seed {seed}, case {i}: mtu {mtu}, unit {}", hex(unit));
    }
    println!("{cases} units compared with the crate, seed {seed}; refused: {seen:?}");
    if cases >= 20_000 {
        assert!([3, 4, 5, 7].iter().all(|n| seen.contains_key(n)), "{seen:?}");
    }
}
