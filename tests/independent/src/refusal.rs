//! Every reason to refuse. Reasons are finer than 01's numbers, so that a run can tell which of them it has met.

use crate::lent::Slice;
use Refusal::*;

#[derive(Clone, Copy, PartialEq, Eq, Debug)]
pub enum Refusal {
    // 1, the length of an image
    LengthZero,
    LengthRagged,
    LengthOver,
    LengthAgainstSizes,
    // 2
    Check,
    // 3, the sizes of a call or the form of a block
    Kind,
    Kf,
    F,
    K,
    Q,
    Zero,
    Number,
    Tail,
    CellZero,
    // 4
    MixedSalt,
    MixedSlot,
    // 5
    Stale,
    // 6
    PacketShort,
    Version,
    HeaderShort,
    HeaderLong,
    PortsShort,
    // 7
    PacketCountFull,
    FlowCountFull,
    // 8, not a session
    SessionSizes,
    OverListed,
    Repeated,
    KnownZero,
    OverHanded,
    OverPeeled,
    WrongMark,
    WrongNumber,
    // 9 to 12, a hand-over
    NotInFilter,
    Listed,
    EmptyCell,
    HandedFull,
    // 14, a peel or a count
    PeelListed,
    PeelEmptyCell,
    CountZero,
    CountOver,
    // 15
    OtherSlot,
    // 16
    FilterRoom,
    CellsRoom,
    ImageRoom,
    MarksRoom,
    NumbersRoom,
    /// In a request, where each slice has its length.
    Room(Slice),
}

impl Refusal {
    pub fn number(self) -> u8 {
        match self {
            LengthZero | LengthRagged | LengthOver | LengthAgainstSizes => 1,
            Check => 2,
            Kind | Kf | F | K | Q | Zero | Number | Tail | CellZero => 3,
            MixedSalt | MixedSlot => 4,
            Stale => 5,
            PacketShort | Version | HeaderShort | HeaderLong | PortsShort => 6,
            PacketCountFull | FlowCountFull => 7,
            SessionSizes | OverListed | Repeated | KnownZero => 8,
            OverHanded | OverPeeled | WrongMark | WrongNumber => 8,
            NotInFilter => 9,
            Listed => 10,
            EmptyCell => 11,
            HandedFull => 12,
            PeelListed | PeelEmptyCell | CountZero | CountOver => 14,
            OtherSlot => 15,
            FilterRoom | CellsRoom | ImageRoom | MarksRoom | NumbersRoom | Room(_) => 16,
        }
    }
}

/// The number of a call that answers no more than done or refused.
pub fn number_of<T>(result: &Result<T, Refusal>) -> u8 {
    result.as_ref().err().map_or(0, |refusal| refusal.number())
}
