use crate::{Token, DEPENDENCY_CAP, ITEM_CAP, MAP_CAP, ROW_CAP, TEXT_CAP};
use std::fmt;

/// Why a call was refused. The first seventeen have lex.rs's names and the next two toposort.rs's; the others come from what the
/// library adds: checked UTF-8, caps, lent memory and sheets.
///
/// Every refusal has a [number](Error::number), a [position](Error::position) and a [detail](Error::detail), as `docs/REFUSALS.md`
/// lists them. A position is a place in the text or a position of the map: [`Error::at`] says which.
///
/// ```
/// use witbox::{At, Error, Token, Tokenizer};
///
/// let mut tokens = Tokenizer::new("use ;", 100)?;
/// tokens.expect(Token::Use)?;
/// let refusal = tokens.expect(Token::Id).unwrap_err();
/// assert_eq!(refusal, Error::Wanted { at: 104, expected: Token::Id, found: Some(Token::Semicolon) });
/// assert_eq!(refusal.to_string(), "an identifier is wanted here, not `;`");
/// assert_eq!(refusal.numbers(), [21, 104, 256 * 62 + 6]);
/// assert_eq!(refusal.at(), Some(At::Map(104)));
/// assert_eq!(refusal.place(100), Some(4));
/// # Ok::<(), Error>(())
/// ```
#[derive(Clone, Copy, Debug, PartialEq, Eq, Hash)]
pub enum Error {
    /// 4, at a place: a control character other than tab, newline and carriage return.
    ControlCodepoint(u32, char),
    /// 5, at a place: a character that Unicode deprecates or discourages.
    DeprecatedCodepoint(u32, char),
    /// 6, at a place: a character that overrides the direction of text.
    ForbiddenCodepoint(u32, char),
    /// 20, in the map, the span's start: a character that an identifier may not have there.
    InvalidCharInId(u32, char),
    /// 19, in the map, the span's start: an identifier with an empty part.
    IdPartEmpty(u32),
    /// 7, in the map: a character that begins no token.
    Unexpected(u32, char),
    /// 8, in the map: a block comment that does not end, at its start.
    UnterminatedComment(u32),
    /// 21: another token than the wanted one.
    Wanted {
        /// In the map: where the found token or the end of the text stands.
        at: u32,
        /// The wanted kind.
        expected: Token,
        /// The found kind, or none for the end of the text.
        found: Option<Token>,
    },
    /// 18, at the place of the `u`: a number in `\u{...}` that is no character.
    InvalidUnicodeValue(u32, u32),
    /// 10, at a place: a raw character that no string may hold.
    InvalidStringElement(u32, char),
    /// 11, at the place behind a backslash: a character that is no escape.
    InvalidStringEscape(u32, char),
    /// 12, at a place: this character, `{` or `}`, is wanted where another stands.
    WantedChar(u32, char),
    /// 13, in the map, the end of the text: the text ends inside a string.
    UnexpectedEof(u32),
    /// 14, in the map, the opening quote: the string's bytes are no UTF-8 from this one of them on.
    InvalidUtf8(u32, u32),
    /// 15, at the place of the digit: a number in `\u{...}` above 4,294,967,295.
    NumberTooBig(u32),
    /// 16, at the place of its first digit: a number in `\u{...}` that ends in an underscore.
    LoneUnderscore(u32),
    /// 17, at a place: another character where a hexadecimal digit is wanted.
    InvalidHexDigit(u32, char),
    /// 29: this dependency's name is no item's. [`dependency`](crate::dependency) tells whose it is.
    ItemNotFound(u32),
    /// 30: dependencies that run in a circle.
    TypeCycle {
        /// The first listed dependency of an item that could not be placed on another such. It need not lie on the circle.
        dependency: u32,
        /// How many listed dependencies have their target placed.
        settled: u32,
    },
    /// 1: the text, or the names of a sheet, has more than [`TEXT_CAP`] bytes: so many.
    TooLong(u32),
    /// 2: the text would end behind [`MAP_CAP`].
    OutOfMap,
    /// 3, at a place: bytes that are no UTF-8.
    IllFormed(u32),
    /// 22: a span that lies badly, or that is no string or identifier.
    BadSpan,
    /// 23: a cursor beyond the text. A [`Tokenizer`](crate::Tokenizer)'s never is.
    BeyondText,
    /// 24: over [`ROW_CAP`] rows: so many.
    TooManyRows(u32),
    /// 25: too little room; so many bytes or words are needed. The calls of this crate make room enough.
    NoRoom(u32),
    /// 26: a sheet of another shape. The sheets that this crate writes are well shaped.
    MalformedSheet,
    /// 27: over [`ITEM_CAP`] items or [`DEPENDENCY_CAP`] dependencies.
    TooManyItems,
    /// 28: this item has the name of an earlier one.
    RepeatedName(u32),
    /// 33: a list that is no load order: the first index at fault, or the length of a list that ends too soon.
    NotAnOrder(u32),
    /// A number that this crate does not know, from another version of the library.
    Other {
        /// The number.
        number: u32,
        /// Its position, of either sort.
        position: u32,
        /// Its detail.
        detail: u32,
    },
}

/// What an error's position counts.
#[derive(Clone, Copy, Debug, PartialEq, Eq, Hash)]
pub enum At {
    /// A place: bytes from the start of the text.
    Place(u32),
    /// A position of the map: the text's offset and a place, added.
    Map(u32),
}

/// A line and a column of a text, both from 1. A column counts characters.
#[derive(Clone, Copy, Debug, PartialEq, Eq, Hash)]
pub struct Location {
    /// The line.
    pub line: usize,
    /// The column.
    pub column: usize,
}

impl Error {
    /// The error with the library's three numbers.
    pub(crate) fn told(number: u32, position: u32, detail: u32) -> Error {
        Error::known(number, position, detail).unwrap_or(Error::Other {
            number,
            position,
            detail,
        })
    }

    /// Number 30 is not among them: its settled count stands beside the three.
    fn known(number: u32, at: u32, detail: u32) -> Option<Error> {
        let character = char::from_u32(detail);
        Some(match number {
            1 => Error::TooLong(detail),
            2 => Error::OutOfMap,
            3 => Error::IllFormed(at),
            4 => Error::ControlCodepoint(at, character?),
            5 => Error::DeprecatedCodepoint(at, character?),
            6 => Error::ForbiddenCodepoint(at, character?),
            7 => Error::Unexpected(at, character?),
            8 => Error::UnterminatedComment(at),
            10 => Error::InvalidStringElement(at, character?),
            11 => Error::InvalidStringEscape(at, character?),
            12 => Error::WantedChar(at, character?),
            13 => Error::UnexpectedEof(at),
            14 => Error::InvalidUtf8(at, detail),
            15 => Error::NumberTooBig(at),
            16 => Error::LoneUnderscore(at),
            17 => Error::InvalidHexDigit(at, character?),
            18 => Error::InvalidUnicodeValue(at, detail),
            19 => Error::IdPartEmpty(at),
            20 => Error::InvalidCharInId(at, character?),
            21 => Error::Wanted {
                at,
                expected: Token::from_kind(detail / 256)?,
                found: Token::from_kind(detail % 256),
            },
            22 => Error::BadSpan,
            23 => Error::BeyondText,
            24 => Error::TooManyRows(detail),
            25 => Error::NoRoom(detail),
            26 => Error::MalformedSheet,
            27 => Error::TooManyItems,
            28 => Error::RepeatedName(detail),
            29 => Error::ItemNotFound(detail),
            33 => Error::NotAnOrder(detail),
            _ => return None,
        })
    }

    /// Its number, position and detail.
    pub fn numbers(&self) -> [u32; 3] {
        match *self {
            Error::TooLong(length) => [1, 0, length],
            Error::OutOfMap => [2, 0, 0],
            Error::IllFormed(at) => [3, at, 0],
            Error::ControlCodepoint(at, found) => [4, at, found.into()],
            Error::DeprecatedCodepoint(at, found) => [5, at, found.into()],
            Error::ForbiddenCodepoint(at, found) => [6, at, found.into()],
            Error::Unexpected(at, found) => [7, at, found.into()],
            Error::UnterminatedComment(at) => [8, at, 0],
            Error::InvalidStringElement(at, found) => [10, at, found.into()],
            Error::InvalidStringEscape(at, found) => [11, at, found.into()],
            Error::WantedChar(at, wanted) => [12, at, wanted.into()],
            Error::UnexpectedEof(at) => [13, at, 0],
            Error::InvalidUtf8(at, byte) => [14, at, byte],
            Error::NumberTooBig(at) => [15, at, 0],
            Error::LoneUnderscore(at) => [16, at, 0],
            Error::InvalidHexDigit(at, found) => [17, at, found.into()],
            Error::InvalidUnicodeValue(at, value) => [18, at, value],
            Error::IdPartEmpty(at) => [19, at, 0],
            Error::InvalidCharInId(at, found) => [20, at, found.into()],
            Error::Wanted {
                at,
                expected,
                found,
            } => [
                21,
                at,
                256 * expected.kind() + found.map_or(END, Token::kind),
            ],
            Error::BadSpan => [22, 0, 0],
            Error::BeyondText => [23, 0, 0],
            Error::TooManyRows(rows) => [24, 0, rows],
            Error::NoRoom(need) => [25, 0, need],
            Error::MalformedSheet => [26, 0, 0],
            Error::TooManyItems => [27, 0, 0],
            Error::RepeatedName(item) => [28, 0, item],
            Error::ItemNotFound(dependency) => [29, 0, dependency],
            Error::TypeCycle { dependency, .. } => [30, 0, dependency],
            Error::NotAnOrder(index) => [33, 0, index],
            Error::Other {
                number,
                position,
                detail,
            } => [number, position, detail],
        }
    }

    /// Its number in `docs/REFUSALS.md` and `include/witbox.h`, from 1 to 30 but 9, or 33.
    pub fn number(&self) -> u32 {
        self.numbers()[0]
    }

    /// Its position as the library answers it: of the sort that [`Error::at`] says, or 0.
    pub fn position(&self) -> u32 {
        self.numbers()[1]
    }

    /// Its detail: a character's number, a count, an index, as `docs/REFUSALS.md` says, or 0.
    pub fn detail(&self) -> u32 {
        self.numbers()[2]
    }

    /// Its position, and what that counts; none where the refusal points at nothing in the text.
    pub fn at(&self) -> Option<At> {
        let [number, position, _] = self.numbers();
        match number {
            3..=6 | 10..=12 | 15..=18 => Some(At::Place(position)),
            7 | 8 | 13 | 14 | 19..=21 => Some(At::Map(position)),
            _ => None,
        }
    }

    /// The place in the text that it points at, where the text stands at `offset` in the map.
    pub fn place(&self, offset: u32) -> Option<u32> {
        match self.at()? {
            At::Place(place) => Some(place),
            At::Map(position) => position.checked_sub(offset),
        }
    }

    /// The line and the column that it points at, where `text` stands at `offset` in the map.
    ///
    /// ```
    /// let text = "world desk {\n    import clock!\n}";
    /// let refusal = witbox::list(text, 100).unwrap_err();
    /// let location = refusal.location(text, 100).unwrap();
    /// assert_eq!(format!("{location}: {refusal}"), "2:17: no token begins with '!'");
    /// ```
    pub fn location<T: AsRef<[u8]> + ?Sized>(&self, text: &T, offset: u32) -> Option<Location> {
        let place = usize::try_from(self.place(offset)?).ok()?;
        Some(Location::of(text.as_ref().get(..place)?))
    }
}

/// What the library answers in a kind's place at the end of the text.
pub(crate) const END: u32 = 67;

impl Location {
    /// Where a text goes on behind these bytes.
    fn of(before: &[u8]) -> Location {
        let lines = before.split(|&byte| byte == b'\n');
        let (count, last) = lines.fold((0, before), |(count, _), line| (count + 1, line));
        let characters = last.iter().filter(|&&byte| byte & 0xC0 != 0x80).count();
        Location {
            line: count,
            column: characters + 1,
        }
    }
}

impl fmt::Display for Location {
    fn fmt(&self, f: &mut fmt::Formatter<'_>) -> fmt::Result {
        write!(f, "{}:{}", self.line, self.column)
    }
}

/// A character that a reader may not see, by its number.
struct Numbered(char);

impl fmt::Display for Numbered {
    fn fmt(&self, f: &mut fmt::Formatter<'_>) -> fmt::Result {
        write!(f, "U+{:04X}", u32::from(self.0))
    }
}

impl fmt::Display for Error {
    fn fmt(&self, f: &mut fmt::Formatter<'_>) -> fmt::Result {
        match *self {
            Error::TooLong(length) => {
                write!(f, "{length} bytes are too many: {TEXT_CAP} are the most")
            }
            Error::OutOfMap => write!(
                f,
                "the text would end behind {MAP_CAP}, the last position of the map"
            ),
            Error::IllFormed(_) => write!(f, "these bytes are no UTF-8"),
            Error::ControlCodepoint(_, found) => {
                write!(
                    f,
                    "control character {} may not stand in a text",
                    Numbered(found)
                )
            }
            Error::DeprecatedCodepoint(_, found) => {
                write!(
                    f,
                    "{} is deprecated by Unicode and may not stand in a text",
                    Numbered(found)
                )
            }
            Error::ForbiddenCodepoint(_, found) => {
                write!(
                    f,
                    "{} changes the direction of text and may not stand in a text",
                    Numbered(found)
                )
            }
            Error::Unexpected(_, found) => write!(f, "no token begins with {found:?}"),
            Error::UnterminatedComment(_) => write!(f, "this block comment does not end"),
            Error::InvalidStringElement(_, found) => {
                write!(f, "a string may hold {} by an escape only", Numbered(found))
            }
            Error::InvalidStringEscape(_, found) => {
                write!(f, "a backslash with {found:?} behind it is no escape")
            }
            Error::WantedChar(_, wanted) => write!(f, "{wanted:?} is wanted here"),
            Error::UnexpectedEof(_) => write!(f, "the text ends inside a string"),
            Error::InvalidUtf8(_, byte) => {
                write!(
                    f,
                    "the bytes of this string are no UTF-8 from byte {byte} on"
                )
            }
            Error::NumberTooBig(_) => write!(f, "with this digit the number is above {}", u32::MAX),
            Error::LoneUnderscore(_) => write!(f, "this number ends in an underscore"),
            Error::InvalidHexDigit(_, found) => write!(f, "{found:?} is no hexadecimal digit"),
            Error::InvalidUnicodeValue(_, value) => {
                write!(f, "{value:#x} is the number of no character")
            }
            Error::IdPartEmpty(_) => write!(f, "an identifier has an empty part"),
            Error::InvalidCharInId(_, found) => {
                write!(f, "an identifier may not have {found:?} there")
            }
            Error::Wanted {
                expected,
                found: Some(found),
                ..
            } => write!(f, "{expected} is wanted here, not {found}"),
            Error::Wanted {
                expected,
                found: None,
                ..
            } => write!(f, "{expected} is wanted here, but the text ends"),
            Error::BadSpan => write!(
                f,
                "the span is outside the text, or not what it was taken for"
            ),
            Error::BeyondText => write!(f, "the cursor stands beyond the text"),
            Error::TooManyRows(rows) => {
                write!(f, "{rows} rows are too many: {ROW_CAP} are the most")
            }
            Error::NoRoom(need) => write!(f, "there is too little room: {need} is the need"),
            Error::MalformedSheet => write!(f, "the sheet has another shape than a sheet should"),
            Error::TooManyItems => {
                write!(f, "{ITEM_CAP} items and {DEPENDENCY_CAP} dependencies are the most, and here are more")
            }
            Error::RepeatedName(item) => write!(f, "item {item} has the name of an earlier item"),
            Error::ItemNotFound(dependency) => {
                write!(f, "dependency {dependency} is on a name that no item has")
            }
            Error::TypeCycle { dependency, .. } => {
                write!(f, "the dependencies run in a circle that keeps dependency {dependency} from being met")
            }
            Error::NotAnOrder(index) => {
                write!(f, "the list is no load order from index {index} on")
            }
            Error::Other {
                number,
                position,
                detail,
            } => write!(f, "refusal {number}, position {position}, detail {detail}"),
        }
    }
}

impl std::error::Error for Error {}

#[cfg(test)]
mod tests {
    use super::*;

    #[test]
    fn numbers_there_and_back() {
        for number in (1..30)
            .chain([33])
            .filter(|number| ![9, 21].contains(number))
        {
            let [position, detail] = Error::told(number, 0, 0).at().map_or([0, 0], |_| [7, 0]);
            let error = Error::told(number, position, detail);
            assert_eq!(error.numbers(), [number, position, detail]);
            assert!(!matches!(error, Error::Other { .. }), "{number}");
            assert!(!error.to_string().is_empty());
        }
        for found in 0..68 {
            let error = Error::told(21, 5, 256 * 9 + found);
            assert_eq!(error.numbers(), [21, 5, 256 * 9 + found]);
        }
    }

    #[test]
    fn unknown_numbers_stay() {
        for numbers in [
            [31, 2, 3],
            [9, 6, 955],
            [0, 0, 0],
            [7, 1, 0xD800],
            [21, 1, 256 * 67],
        ] {
            let [number, position, detail] = numbers;
            let error = Error::told(number, position, detail);
            assert_eq!(error.numbers(), numbers);
            assert!(matches!(error, Error::Other { .. }), "{number}");
        }
    }

    #[test]
    fn places_and_positions() {
        assert_eq!(Error::told(3, 4, 0).place(100), Some(4));
        assert_eq!(Error::told(8, 104, 0).place(100), Some(4));
        assert_eq!(Error::told(8, 4, 0).place(100), None);
        assert_eq!(Error::told(24, 0, 4097).place(0), None);
    }

    #[test]
    fn lines_and_columns() {
        let location = |before: &str| {
            let place = u32::try_from(before.len()).unwrap();
            let text = format!("{before}/*");
            Error::told(8, 9 + place, 0).location(&text, 9).unwrap()
        };
        assert_eq!(location(""), Location { line: 1, column: 1 });
        assert_eq!(location("é λ"), Location { line: 1, column: 4 });
        assert_eq!(location("a\r\nb\n"), Location { line: 3, column: 1 });
        assert_eq!(location("\n\n  "), Location { line: 3, column: 3 });
        assert_eq!(Error::told(8, 20, 0).location("", 9), None);
    }
}
