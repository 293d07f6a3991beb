//! Refusals by name.

use std::fmt;

/// Why a call was refused. The discriminant is the number that document 01 or 02 gives it.
#[derive(Clone, Copy, Debug, PartialEq, Eq, Hash)]
#[repr(u64)]
pub enum Fault {
    /// n above the call's limit.
    TooManyVariables = 1,
    /// List length not a multiple of 8, of 4 for an old list, or of 12 for a shared one.
    ListLength = 2,
    /// More than 4,096 records, or a count above 4,096.
    TooManyRecords = 3,
    /// A bad record, or one of a shared list without outputs; the place is the lowest such record.
    BadRecord = 4,
    /// Capacity or length of a written buffer too small.
    BufferTooSmall = 5,
    /// Assignment has a bit at or above n.
    Assignment = 6,
    /// Script length not a multiple of 8.
    ScriptLength = 7,
    /// More than 1,024 steps.
    TooManySteps = 8,
    /// Unknown operation, unused field not zero, a used v at or above n, a used literal above 1; the place is the
    /// lowest such step.
    BadStep = 9,
    /// A used i or j not below the present count; the place is the step.
    PlaceOutside = 10,
    /// i equals j in a step with two cubes; the place is the step.
    SamePlace = 11,
    /// Split with the count at capacity; the place is the step.
    Full = 13,
    /// Vector or coefficient length not 2^n, with 2^n as the place; else a byte above 1, the place is the lowest.
    BadVector = 14,
    /// Polarity has a bit at or above n.
    Polarity = 15,
    /// Drop of unequal cubes; the place is the step.
    DropUnequal = 16,
    /// Join, number of differing variables not one; the place is the step.
    JoinNotOne = 17,
    /// Turn, number of differing variables not two; the place is the step.
    TurnNotTwo = 18,
    /// Turn at a variable where the cubes agree, number of differing variables two; the place is the step.
    TurnAgree = 19,
    /// n above 16, the variables of a narrow record.
    TooManyForNarrow = 20,
    /// A number of literals above 32.
    TooManyLiterals = 21,
    /// Drop, join or turn of products whose outputs are not equal; the place is the step.
    OutputsUnequal = 22,
    /// Merge of products whose cubes differ, or whose outputs are equal; the place is the step.
    Merge = 23,
    /// A map of no list, or of more than 12.
    MapLists = 24,
    /// A lent index that is not this list's; the place is the first wrong entry, or else the first wrong group start.
    WrongIndex = 25,
    /// Lengths of a map's lists, or of its scripts, that don't add up to their buffer, or not one script a list.
    MapLengths = 26,
}

impl Fault {
    /// All faults, by number.
    pub const ALL: [Fault; 25] = [
        Fault::TooManyVariables,
        Fault::ListLength,
        Fault::TooManyRecords,
        Fault::BadRecord,
        Fault::BufferTooSmall,
        Fault::Assignment,
        Fault::ScriptLength,
        Fault::TooManySteps,
        Fault::BadStep,
        Fault::PlaceOutside,
        Fault::SamePlace,
        Fault::Full,
        Fault::BadVector,
        Fault::Polarity,
        Fault::DropUnequal,
        Fault::JoinNotOne,
        Fault::TurnNotTwo,
        Fault::TurnAgree,
        Fault::TooManyForNarrow,
        Fault::TooManyLiterals,
        Fault::OutputsUnequal,
        Fault::Merge,
        Fault::MapLists,
        Fault::WrongIndex,
        Fault::MapLengths,
    ];

    pub fn number(self) -> u64 {
        self as u64
    }

    pub fn from_number(number: u64) -> Option<Fault> {
        Fault::ALL.into_iter().find(|fault| fault.number() == number)
    }
}

/// A refusal: its fault, which has the number, its place and the number of differing variables.
#[derive(Clone, Copy, Debug, PartialEq, Eq, Hash)]
pub struct Refusal {
    pub fault: Fault,
    pub place: u64,
    /// The number of variables in which the two cubes of the step differ, as they stood before it; 0 in every refusal
    /// but 16 to 19.
    pub differing: u64,
}

/// As the program prints it.
impl fmt::Display for Refusal {
    fn fmt(&self, f: &mut fmt::Formatter) -> fmt::Result {
        write!(f, "refused {} at {}", self.fault.number(), self.place)
    }
}

impl std::error::Error for Refusal {}

/// The refusal of a map of several lists.
#[derive(Clone, Copy, Debug, PartialEq, Eq, Hash)]
pub struct MapRefusal {
    /// As a call on that list alone is refused; the place is counted in that list, or in its script.
    pub refusal: Refusal,
    /// The list that is refused, from 0; nothing where the map is: for its number of lists, for its lengths, or for the output's.
    pub list: Option<u64>,
}

impl fmt::Display for MapRefusal {
    fn fmt(&self, f: &mut fmt::Formatter) -> fmt::Result {
        self.refusal.fmt(f)?;
        self.list.map_or(Ok(()), |list| write!(f, " of list {list}"))
    }
}

impl std::error::Error for MapRefusal {}
