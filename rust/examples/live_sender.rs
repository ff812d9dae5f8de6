//! A sender with room for one packet: plans a unit once, then writes packet after packet into one buffer and sends it.
//!
//!     cargo run --offline --example live_sender < ../examples/clip.in
//!
//! The input is that of `pack`: 01, mtu and first number in two bytes each, or 02, mtu in four bytes and first number in two; then units,
//! each behind its length in four bytes. To send a packet is here to print its number and its payload, a line each.
use std::io::{self, Read, Write};

/// So many bytes from the front of the input, if it has them.
fn take<'a>(input: &mut &'a [u8], bytes: usize) -> Option<&'a [u8]> {
    let front = input.get(..bytes)?;
    *input = &input[bytes..];
    Some(front)
}

/// A number of so many bytes, the highest first.
fn take_number(input: &mut &[u8], bytes: usize) -> Option<usize> {
    Some(take(input, bytes)?.iter().fold(0, |value, &byte| value << 8 | usize::from(byte)))
}

fn send_packet(to: &mut impl Write, number: u16, payload: &[u8]) -> io::Result<()> {
    write!(to, "{number} ")?;
    payload.iter().try_for_each(|byte| write!(to, "{byte:02X}"))?;
    writeln!(to)
}

fn main() -> Result<(), Box<dyn std::error::Error>> {
    let mut bytes = Vec::new();
    io::stdin().read_to_end(&mut bytes)?;
    let mut input = &bytes[..];
    let width = match take_number(&mut input, 1) {
        Some(1) => 2,
        Some(2) => 4,
        _ => return Err("input: no head".into()),
    };
    let (Some(mtu), Some(first)) = (take_number(&mut input, width), take_number(&mut input, 2)) else {
        return Err("input: no head".into());
    };
    let mut to = io::BufWriter::new(io::stdout().lock());
    let mut payloader = av1rtp::Payloader::new();
    let mut packet = vec![0; mtu.min(av1rtp::MTU_LIMIT)]; // holds any packet
    let mut number = first as u16;
    while !input.is_empty() {
        let length = take_number(&mut input, 4).ok_or("a unit is cut")?;
        let unit = take(&mut input, length).ok_or("a unit is cut")?;
        let planned = payloader.plan_unit(mtu, unit)?;
        for k in 0..planned.packets() {
            let length = planned.write_packet(k, &mut packet)?;
            send_packet(&mut to, number, &packet[..length])?;
            number = number.wrapping_add(1);
        }
    }
    to.flush()?;
    Ok(())
}
