//! The numbers of "Turning away" and the mosts of "Written form", each in one place.

pub const OVERLONG: u8 = 1;
pub const STRAY_BYTE: u8 = 2;
pub const MALFORMED: u8 = 3;
pub const OVER_COUNT: u8 = 4;
pub const UNBOUND: u8 = 5;
pub const SELF_TAKEN: u8 = 6;
pub const UNFINISHED: u8 = 7;
pub const DANGLING: u8 = 8;
pub const SHORT_TABLE: u8 = 9;
pub const ABSENT: u8 = 10;
pub const NO_FIELD: u8 = 11;
pub const NO_METHOD: u8 = 12;
pub const WRONG_THING: u8 = 13;
pub const PERMISSION: u8 = 14;
pub const CAST: u8 = 15;
pub const USED_UP: u8 = 16;
pub const NO_THREAD: u8 = 17;
pub const NO_SCRIPT: u8 = 18;
pub const ALIAS: u8 = 19;
pub const FOREIGN: u8 = 20;
pub const NO_OBJECT: u8 = 21;

/// The numbers of stops.
pub const STOPS: [u8; 9] = [
    ABSENT,
    NO_FIELD,
    NO_METHOD,
    WRONG_THING,
    PERMISSION,
    CAST,
    USED_UP,
    ALIAS,
    FOREIGN,
];

pub const MOST_TEXT: usize = 16_384;
pub const MOST_TURNS: usize = 32_768;
/// Of a list that is asked for races.
pub const MOST_RACE_TURNS: usize = 1_024;
pub const MOST_INPUT: usize = 65_536;
pub const MOST_NUMBER: u16 = 255;
pub const MOST_DIGITS: usize = 3;

pub const MOST_KINDS: usize = 32;
pub const MOST_FIELDS: usize = 4;
pub const MOST_METHODS: usize = 4;
pub const MOST_BLOCKS: usize = 64;
pub const MOST_SLOTS: usize = 16;
pub const MOST_LETS: usize = 512;
pub const MOST_OPERANDS: usize = 4;
/// Every kind, opener, give and let.
pub const MOST_LINES: usize = MOST_KINDS + 2 * MOST_BLOCKS + MOST_LETS;

pub const MOST_OBJECTS: usize = 256;
pub const MOST_THREADS: usize = 16;
pub const MOST_FRAMES: usize = 16;

pub const TABLE_WORDS: usize = 8_192;
pub const LIST_WORDS: usize = 256;
/// Of the buffer that is lent for a drawing.
pub const DRAWING_BYTES: usize = 65_536;

/// "The stripped-script rule now counts 14, 15, 19 and 20 as permission or cast."
pub fn by_guard(number: u8) -> bool {
    matches!(number, PERMISSION | CAST | ALIAS | FOREIGN)
}

/// A text, list or table that is turned away: the number of the reason and its place.
#[derive(Clone, Copy, Debug, PartialEq, Eq)]
pub struct Refusal {
    pub number: u8,
    pub line: usize,
}

/// The refusals 1, 9, 17 and 21, whose place is always zero.
pub fn refused_at_zero(number: u8) -> Refusal {
    Refusal { number, line: 0 }
}
