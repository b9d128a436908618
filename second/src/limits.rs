//! The limits of a script, of an order and of a house.

/// The most houses that a script may have.
pub const MAX_HOUSES: u32 = 4;

/// The most entries that an order may read, and the most that it may write.
pub const MAX_ENTRIES: u32 = 16;

/// The highest item of a house.
pub const MAX_ITEM: u32 = 4_095;

/// The highest number of an order within a start.
pub const MAX_NUMBER: u32 = 65_535;

/// The most starts of a house.
pub const MAX_STARTS: u32 = 65_535;

/// The most orders that a house holds back.
pub const MAX_HELD: usize = 64;

/// The most orders that a home asks about.
pub const MAX_ASKED: usize = 64;

/// The most bytes of a file.
pub const MAX_FILE: usize = 4_194_304;
