//! Runs the four AV1 files of crate rtp 0.17.2, unchanged, as an oracle.
//!
//! One case a line on standard input: `<mtu> <unit in hex, or ->`. One answer a line on standard output:
//!
//!   ok <obus> <plan> <headers> <payloads>     each a list, or - if it is empty
//!     obus      header,extension,start,length,size;...     start is -1 for an empty payload: the crate keeps none
//!     plan      first,count,offset,last,size;...
//!     headers   hh,hh,...
//!     payloads  hex,hex,...
//!   err <name>          the crate's own error
//!   panic <stage>       obus, plan, headers or payloads
//!
//! `build` puts the crate's files at src/codecs/av1/ of the project that it makes. The modules `error` and
//! `packetizer` below stand in for the rest of the crate that these files name.
#![allow(dead_code, unused_imports)]

mod error {
    #[derive(Debug, PartialEq)]
    pub enum Error {
        ErrPayloadTooSmallForObuExtensionHeader,
        ErrPayloadTooSmallForObuPayloadSize,
    }
    pub type Result<T> = std::result::Result<T, Error>;
}
pub use error::Error;

mod packetizer {
    pub trait Payloader: std::fmt::Debug {
        fn payload(&mut self, mtu: usize, b: &bytes::Bytes) -> crate::error::Result<Vec<bytes::Bytes>>;
        fn clone_to(&self) -> Box<dyn Payloader + Send + Sync>;
    }
}

mod codecs;

use bytes::Bytes;
use codecs::av1::{obu::parse_obus, packetizer as plan, payloads::Av1Payloader};
use packetizer::Payloader;
use std::io::{BufRead, Write};
use std::panic::{catch_unwind, AssertUnwindSafe};

fn unhex(s: &str) -> Vec<u8> {
    if s == "-" {
        return vec![];
    }
    let digit = |c: u8| (c as char).to_digit(16).expect("a hex digit") as u8;
    s.as_bytes().chunks(2).map(|two| digit(two[0]) << 4 | digit(two[1])).collect()
}

fn hex(bytes: &[u8]) -> String {
    let digits = b"0123456789ABCDEF";
    bytes.iter().flat_map(|b| [digits[(b >> 4) as usize] as char, digits[(b & 15) as usize] as char]).collect()
}

fn list(v: Vec<String>, sep: &str) -> String {
    if v.is_empty() { "-".into() } else { v.join(sep) }
}

fn attempt<T>(stage: &str, f: impl FnOnce() -> T) -> Result<T, String> {
    catch_unwind(AssertUnwindSafe(f)).map_err(|_| format!("panic {stage}"))
}

fn answer(mtu: usize, unit: &Bytes) -> Result<String, String> {
    let obus = attempt("obus", || parse_obus(unit))?.map_err(|e| format!("err {e:?}"))?;
    let packets = attempt("plan", || plan::packetize(&obus, mtu))?;
    let heads = attempt("headers", || {
        (0..packets.len()).map(|k| plan::get_aggregation_header(&obus, &packets, k)).collect::<Vec<u8>>()
    })?;
    let payloads = attempt("payloads", || Av1Payloader {}.payload(mtu, unit))?.map_err(|e| format!("err {e:?}"))?;
    let obus = obus.iter().map(|o| {
        let start = if o.payload.is_empty() { -1 } else { o.payload.as_ptr() as isize - unit.as_ptr() as isize };
        format!("{},{},{},{},{}", o.header, o.extension_header, start, o.payload.len(), o.size)
    });
    let packets = packets.iter().map(|p| {
        let (f, n, o) = (p.first_obu_index, p.num_obu_elements, p.first_obu_offset);
        format!("{f},{n},{o},{},{}", p.last_obu_size, p.packet_size)
    });
    Ok(format!(
        "ok {} {} {} {}",
        list(obus.collect(), ";"),
        list(packets.collect(), ";"),
        list(heads.iter().map(|h| format!("{h:02X}")).collect(), ","),
        list(payloads.iter().map(|p| hex(p)).collect(), ",")
    ))
}

fn main() {
    std::panic::set_hook(Box::new(|_| {}));
    let out = std::io::stdout();
    let mut out = std::io::BufWriter::new(out.lock());
    for line in std::io::stdin().lock().lines() {
        let line = line.expect("a line");
        let (mtu, unit) = line.split_once(' ').expect("mtu and unit");
        let unit = Bytes::from(unhex(unit));
        let text = answer(mtu.parse().expect("an mtu"), &unit).unwrap_or_else(|e| e);
        writeln!(out, "{text}").expect("written");
    }
}
