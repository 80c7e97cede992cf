//! The places of the step list.

use crate::lists::{Move, Phase};

/// A task's place in the step list: the next step that it does.
#[derive(Clone, Copy, PartialEq, Eq, Debug)]
pub enum Place {
    Idle,
    AllocateCache,
    List(Move, Phase),
    ReadAnchor,
    TakeChain,
    MoveChain,
    WriteDescriptor,
    Carve,
    FreeCache,
    Group,
    ReadAnchorToReturn,
    LastLink,
    ReturnGroup,
    ClearMap,
    TakeStrip,
    GiveStrip,
    Leave,
}

/// How many places there are, idle with them.
pub const PLACES: usize = 37;

impl Place {
    /// The places by number, 0 for idle and 1 to 36 in the step list, as the documents of the layout count them.
    pub fn number(self) -> usize {
        match self {
            Place::Idle => 0,
            Place::AllocateCache => 1,
            Place::List(what, phase) => 2 + 3 * what as usize + phase as usize,
            Place::ReadAnchor => 23,
            Place::TakeChain => 24,
            Place::MoveChain => 25,
            Place::WriteDescriptor => 26,
            Place::Carve => 27,
            Place::FreeCache => 28,
            Place::Group => 29,
            Place::ReadAnchorToReturn => 30,
            Place::LastLink => 31,
            Place::ReturnGroup => 32,
            Place::ClearMap => 33,
            Place::TakeStrip => 34,
            Place::GiveStrip => 35,
            Place::Leave => 36,
        }
    }

    /// Whether the request returns blocks there: a free, from its first step on, or leaving before its last.
    pub fn returns(self) -> bool {
        matches!(self.number(), 17..=22 | 28..=33)
    }

    pub fn is_exchange(self) -> bool {
        matches!(self, Place::List(_, Phase::Exchange) | Place::TakeChain | Place::ReturnGroup)
    }

    /// Where a task that stands still lets others change what it is about to write.
    pub fn is_worth_a_stop(self) -> bool {
        self.is_exchange() || matches!(self, Place::ClearMap | Place::WriteDescriptor | Place::GiveStrip)
    }
}
