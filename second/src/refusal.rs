//! The numbered refusals.

/// Why a line is refused; where several reasons fit, the lowest number is answered.
#[derive(Clone, Copy, Debug, PartialEq, Eq, PartialOrd, Ord)]
pub enum Refusal {
    /// The line is not one of the forms, or delivers a message that nobody sent.
    Form = 1,
    /// A house, an item, a start or an order's number is out of range.
    Range = 2,
    /// The file cannot be opened: it has all the starts that it may have.
    File = 3,
    /// Submit: another home, or another start.
    OtherStart = 4,
    /// Submit: the number was tried in this start.
    Tried = 5,
    /// Submit: no more orders can be asked about.
    AskedFull = 6,
    /// Hold: the house is not one of the order's.
    NotParty = 7,
    /// Hold: an order of this name was held before.
    HeldBefore = 8,
    /// Hold: the order clashes with one held back.
    Clash = 9,
    /// Hold: a shelf is not as seen.
    NotAsSeen = 10,
    /// Hold: no more orders can be held back.
    HeldFull = 11,
    /// Vote, rule, give up: the name is not asked about. Learn: it is not held back.
    Unknown = 12,
    /// Rule: a house of the order has not said yes.
    VoteMissing = 13,
    /// Answer: nothing to say of that name.
    NothingToSay = 14,
    /// The file is full.
    FileFull = 15,
}

impl Refusal {
    /// The number that is printed.
    pub fn number(self) -> usize {
        self as usize
    }
}
