//! AV1 video in RTP payloads: a sender and a receiver whose every call is proved, behind a safe API.
//!
//! [`payload`] makes the payloads of a temporal unit; [`Payloader`] does so for many, all packets of a unit at once or one at a time
//! into a buffer of the caller's. [`Receiver`] takes the packets of one train and hands out OBUs; [`train`] reads and writes trains.
//! [`list`] and [`plan`] say where things stand in a unit, for inspection: no position from them goes into an export, and only trains
//! leave the house. [`padded`] and [`Receiver::padded`] count size fields that are longer than they need to be. [`lent`] has the calls as
//! they are, over buffers of the caller's.
//!
//! What is refused, when, and by which number is in `docs/RULES.md`; [`Refusal`] carries the number, and its words.
//!
//! The work is done by the static library `av1rtp`, written in Rattle and proved; this crate only lends it slices. One private
//! module has `unsafe`.
#![deny(missing_docs)]
#![deny(unsafe_code)]

#[allow(unsafe_code)]
mod ffi;
pub mod lent;
mod payloads;
mod receiver;
mod refusal;
mod sender;
pub mod train;

pub use payloads::{OwnedPayloads, Payloads};
pub use receiver::{element, elements, Receiver};
pub use refusal::{Reason, Refusal};
pub use sender::{list, padded, payload, plan, Obu, PacketMetadata, Payloader, Plan, PlannedUnit};

/// The most bytes of a unit.
pub const UNIT_LIMIT: usize = 1_048_576;

/// The largest mtu.
pub const MTU_LIMIT: usize = 1_048_576;

/// The smallest mtu that gives packets.
pub const LEAST_MTU: usize = 3;

/// The most bytes of a payload that is received.
pub const PAYLOAD_LIMIT: usize = 1_048_576;

/// The most bytes of an open fragment.
pub const FRAGMENT_LIMIT: usize = 1_048_576;
