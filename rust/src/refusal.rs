//! Refusals: the numbers 1 to 23 and 31, each with its words.
use std::fmt;

macro_rules! reasons {
    ($($number:literal $name:ident $words:literal)*) => {
        /// Why a call refuses. `docs/RULES.md` says when exactly each is given (R1 to R23, R31).
        #[derive(Clone, Copy, Debug, PartialEq, Eq, Hash)]
        #[non_exhaustive]
        pub enum Reason {
            $(#[doc = concat!($number, ": ", $words, ".")] $name = $number,)*
        }

        impl Reason {
            /// The reason that has this number.
            pub fn from_number(number: u32) -> Option<Reason> {
                match number {
                    $($number => Some(Reason::$name),)*
                    _ => None,
                }
            }

            /// In words.
            pub fn words(self) -> &'static str {
                match self {
                    $(Reason::$name => $words,)*
                }
            }
        }
    };
}

reasons! {
    1 MtuOverLimit "the mtu is above 1,048,576"
    2 UnitOverLimit "the unit is longer than 1,048,576 bytes"
    3 ExtensionMissing "an OBU has the extension bit set and no second header byte"
    4 SizeMissing "an OBU has the size bit set and no byte after its header"
    5 SizeUnfinished "a size field does not end"
    6 SizeTooLarge "a size field has more than 8 bytes, or a value above 4,294,967,295"
    7 PayloadPastUnit "an OBU's payload runs past the unit"
    8 ObuListFull "the OBU list has no room for this OBU"
    9 PlanListFull "the plan list is shorter than the plan"
    10 NoRoomForPayloads "the output is shorter than the packets asked for"
    11 NoUsablePacket "there is no such packet, or, for its header, its record has no element, OBUs beyond the list or an end past 4,294,967,295, or an OBU record lies outside the unit"
    12 StateImpossible "the open length is above the store's length or its limit"
    13 PayloadLength "the payload is empty, longer than 1,048,576 bytes, or longer than its train can state"
    14 NotAhead "the number is not ahead of the last one taken"
    15 NewWithContinuation "N and Z are both set"
    16 ElementLengthBad "an element's length field is bad or missing"
    17 ElementBad "an element is empty, missing, or runs past the payload"
    18 ObuBroken "a finished OBU lacks a header byte, or its size field does not cover exactly the rest"
    19 FragmentTooLong "the open fragment would be longer than the store or its limit"
    20 NoRoomForObus "the output is too short for the OBUs of this packet"
    21 TrainVersion "the train is empty, or of a version other than 1 and 2"
    22 TrainCut "the train ends inside a record"
    23 RecordTooShort "a train record states a length below 3"
    31 ListsDiffer "the list or the plan is not the one that this unit and mtu give"
}

/// A refusal: its reason, and where it was found.
#[derive(Clone, Copy, Debug, PartialEq, Eq, Hash)]
pub struct Refusal {
    reason: Reason,
    offset: usize,
}

impl Refusal {
    pub(crate) fn new(reason: Reason, offset: usize) -> Refusal {
        Refusal { reason, offset }
    }

    /// The reason.
    pub fn reason(&self) -> Reason {
        self.reason
    }

    /// The number of the reason: 1 to 23, or 31.
    pub fn number(&self) -> u32 {
        self.reason as u32
    }

    /// For reasons 3 to 8, where in the unit the header byte of the OBU stands; else 0.
    pub fn offset(&self) -> usize {
        self.offset
    }
}

impl fmt::Display for Refusal {
    fn fmt(&self, f: &mut fmt::Formatter<'_>) -> fmt::Result {
        write!(f, "refused {}", self.number())?;
        if (3..=8).contains(&self.number()) {
            write!(f, " at {}", self.offset)?;
        }
        write!(f, ": {}", self.reason.words())
    }
}

impl std::error::Error for Refusal {}
