//! The limits of document 01, as messages have them and as room is lent. The library holds to its own.

pub const MOST_WORDS: usize = 8_192;
pub const MOST_VARIABLES: usize = 64;
pub const MOST_VALUES: u32 = 256;
pub const MOST_ACTIONS: usize = 1_024;
pub const MOST_PRICE: u32 = 1_000_000;
pub const MOST_MOVES: usize = 255;
pub const MOST_UNMARKED: usize = 20;

/// How many bytes a word has in the programs' form.
pub const WORD_BYTES: usize = 4;
