//! The numbers of the kinds: the declaration order of `Token`.

/// A run of blanks.
pub const WHITESPACE: u32 = 0;
/// A comment.
pub const COMMENT: u32 = 1;
/// `->`.
pub const R_ARROW: u32 = 13;
/// `/`.
pub const SLASH: u32 = 16;
/// `-`.
pub const MINUS: u32 = 18;
/// A string.
pub const STRING_LITERAL: u32 = 19;
/// An identifier.
pub const ID: u32 = 62;
/// An identifier behind `%`.
pub const EXPLICIT_ID: u32 = 63;
/// A run of digits.
pub const INTEGER: u32 = 64;

/// The marks that are a token by themselves, whatever follows.
pub const MARKS: [(u8, u32); 14] = [
    (b'=', 2),
    (b',', 3),
    (b':', 4),
    (b'.', 5),
    (b';', 6),
    (b'(', 7),
    (b')', 8),
    (b'{', 9),
    (b'}', 10),
    (b'<', 11),
    (b'>', 12),
    (b'*', 14),
    (b'@', 15),
    (b'+', 17),
];

/// The 44 keywords.
pub const KEYWORDS: [(&str, u32); 44] = [
    ("use", 20),
    ("type", 21),
    ("func", 22),
    ("u8", 23),
    ("u16", 24),
    ("u32", 25),
    ("u64", 26),
    ("s8", 27),
    ("s16", 28),
    ("s32", 29),
    ("s64", 30),
    ("f32", 31),
    ("f64", 32),
    ("char", 33),
    ("record", 34),
    ("resource", 35),
    ("own", 36),
    ("borrow", 37),
    ("flags", 38),
    ("variant", 39),
    ("enum", 40),
    ("bool", 41),
    ("string", 42),
    ("option", 43),
    ("result", 44),
    ("future", 45),
    ("stream", 46),
    ("error-context", 47),
    ("list", 48),
    ("map", 49),
    ("_", 50),
    ("as", 51),
    ("from", 52),
    ("static", 53),
    ("interface", 54),
    ("tuple", 55),
    ("import", 56),
    ("export", 57),
    ("world", 58),
    ("package", 59),
    ("constructor", 60),
    ("async", 61),
    ("include", 65),
    ("with", 66),
];
