//! Times plan and packets of the static library, lent and through the safe crate, beside the payload call of the crate, and the receive
//! call beside a plain copy.
//!
//!     bench time ROUNDS     a line `time WORK SIDE NANOSECONDS` for each work and side: the least time of a call
//!     bench count           under callgrind: dumps the instructions of one call of each, under the name `WORK SIDE`
//!
//! WORK is four words: `pay` or `back`, the unit's bytes, its OBUs, the mtu. `pay` has the sides `ours`, `safe` and `crate`, `back` the
//! sides `ours` and `copy`.
mod codecs;
mod count;
mod work;

/// What the crate's files want of the rest of their crate.
mod error {
    #[derive(Debug)]
    pub enum Error {
        ErrPayloadTooSmallForObuExtensionHeader,
        ErrPayloadTooSmallForObuPayloadSize,
    }
    pub type Result<T> = std::result::Result<T, Error>;
}
pub use error::Error;

mod packetizer {
    pub trait Payloader: std::fmt::Debug {
        fn payload(&mut self, mtu: usize, b: &bytes::Bytes) -> crate::error::Result<Vec<bytes::Bytes>>;
        #[allow(dead_code)]
        fn clone_to(&self) -> Box<dyn Payloader + Send + Sync>;
    }
}

use std::time::Instant;
use work::Work;

const SIZES: [usize; 4] = [300, 10_000, 100_000, 1_000_000];
const OBUS: [usize; 3] = [1, 10, 1000];
const MTUS: [usize; 4] = [100, 1200, 65_533, 1_048_576];

type Side = (&'static str, fn(&mut Work));

const PAY: [Side; 3] = [("ours", Work::ours), ("safe", Work::safe), ("crate", Work::theirs)];
const BACK: [Side; 2] = [("ours", Work::back), ("copy", Work::copy)];

/// Unit bytes, OBUs, mtu: every size with every count of OBUs of at least five bytes at every mtu; then bytes that grow from 1 KB to
/// 1 MB in one OBU, and OBUs of 40 bytes that grow from 10 to 10,000.
fn points() -> Vec<(usize, usize, usize)> {
    let mut points = vec![];
    for size in SIZES {
        for obus in OBUS {
            if 5 * obus <= size {
                points.extend(MTUS.map(|mtu| (size, obus, mtu)));
            }
        }
    }
    points.extend((10..=20).map(|k| (1 << k, 1, 1200)));
    points.extend([10, 100, 1000, 10_000].map(|n| (40 * n, n, 1200)));
    points
}

/// The least time of one call, over rounds in which the sides take turns, each with a batch of calls of about 20 microseconds.
fn time(name: &str, work: &mut Work, sides: &[Side], rounds: usize) {
    let batch = |f: fn(&mut Work), work: &mut Work| {
        let began = Instant::now();
        (0..3).for_each(|_| f(work));
        (60_000 / (began.elapsed().as_nanos() as usize + 1)).clamp(1, 1000)
    };
    let calls: Vec<usize> = sides.iter().map(|(_, f)| batch(*f, work)).collect();
    let mut least = vec![f64::MAX; sides.len()];
    for _ in 0..rounds {
        for (s, (_, f)) in sides.iter().enumerate() {
            let began = Instant::now();
            (0..calls[s]).for_each(|_| f(work));
            least[s] = least[s].min(began.elapsed().as_nanos() as f64 / calls[s] as f64);
        }
    }
    for (s, (side, _)) in sides.iter().enumerate() {
        println!("time {name} {side} {:.1}", least[s]);
    }
}

fn counted(name: &str, work: &mut Work, sides: &[Side]) {
    for (side, f) in sides {
        let name = count::name(&format!("{name} {side}"));
        f(work);
        count::zero();
        f(work);
        count::dump(&name);
    }
}

fn main() {
    let words: Vec<String> = std::env::args().skip(1).collect();
    let rounds = match words.iter().map(String::as_str).collect::<Vec<_>>()[..] {
        ["time", rounds] => Some(rounds.parse().expect("a number of rounds")),
        ["count"] => None,
        _ => panic!("usage: bench time ROUNDS | bench count"),
    };
    for (size, obus, mtu) in points() {
        let mut work = Work::new(size, obus, mtu);
        for (kind, sides) in [("pay", &PAY[..]), ("back", &BACK[..])] {
            let name = format!("{kind} {size} {obus} {mtu}");
            match rounds {
                Some(rounds) => time(&name, &mut work, sides, rounds),
                None => counted(&name, &mut work, sides),
            }
        }
    }
}
