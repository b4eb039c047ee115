use std::fmt;

/// The kinds by name, number and words.
macro_rules! tokens {
    ($($name:ident = $kind:literal, $words:literal;)*) => {
        /// The kinds of tokens, with lex.rs's names in lex.rs's order.
        #[derive(Clone, Copy, Debug, PartialEq, Eq, Hash)]
        #[repr(u8)]
        pub enum Token {
            $(#[doc = $words] $name = $kind,)*
        }

        impl Token {
            /// Every kind, in order: `Token::ALL[n]` has the number n.
            pub const ALL: [Token; 67] = [$(Token::$name),*];

            /// The kind in words, as a message names it.
            pub fn describe(&self) -> &'static str {
                match self {
                    $(Token::$name => $words,)*
                }
            }

            /// The kind's name: lex.rs's, without the `_` that keeps a few from Rust's own names.
            pub fn name(&self) -> &'static str {
                match self {
                    $(Token::$name => stringify!($name).trim_end_matches('_'),)*
                }
            }
        }
    };
}

tokens! {
    Whitespace = 0, "blank space";
    Comment = 1, "a comment";
    Equals = 2, "`=`";
    Comma = 3, "`,`";
    Colon = 4, "`:`";
    Period = 5, "`.`";
    Semicolon = 6, "`;`";
    LeftParen = 7, "`(`";
    RightParen = 8, "`)`";
    LeftBrace = 9, "`{`";
    RightBrace = 10, "`}`";
    LessThan = 11, "`<`";
    GreaterThan = 12, "`>`";
    RArrow = 13, "`->`";
    Star = 14, "`*`";
    At = 15, "`@`";
    Slash = 16, "`/`";
    Plus = 17, "`+`";
    Minus = 18, "`-`";
    StringLiteral = 19, "a string";
    Use = 20, "the word `use`";
    Type = 21, "the word `type`";
    Func = 22, "the word `func`";
    U8 = 23, "the word `u8`";
    U16 = 24, "the word `u16`";
    U32 = 25, "the word `u32`";
    U64 = 26, "the word `u64`";
    S8 = 27, "the word `s8`";
    S16 = 28, "the word `s16`";
    S32 = 29, "the word `s32`";
    S64 = 30, "the word `s64`";
    F32 = 31, "the word `f32`";
    F64 = 32, "the word `f64`";
    Char = 33, "the word `char`";
    Record = 34, "the word `record`";
    Resource = 35, "the word `resource`";
    Own = 36, "the word `own`";
    Borrow = 37, "the word `borrow`";
    Flags = 38, "the word `flags`";
    Variant = 39, "the word `variant`";
    Enum = 40, "the word `enum`";
    Bool = 41, "the word `bool`";
    String_ = 42, "the word `string`";
    Option_ = 43, "the word `option`";
    Result_ = 44, "the word `result`";
    Future = 45, "the word `future`";
    Stream = 46, "the word `stream`";
    ErrorContext = 47, "the word `error-context`";
    List = 48, "the word `list`";
    Map = 49, "the word `map`";
    Underscore = 50, "the word `_`";
    As = 51, "the word `as`";
    From_ = 52, "the word `from`";
    Static = 53, "the word `static`";
    Interface = 54, "the word `interface`";
    Tuple = 55, "the word `tuple`";
    Import = 56, "the word `import`";
    Export = 57, "the word `export`";
    World = 58, "the word `world`";
    Package = 59, "the word `package`";
    Constructor = 60, "the word `constructor`";
    Async = 61, "the word `async`";
    Id = 62, "an identifier";
    ExplicitId = 63, "an identifier behind `%`";
    Integer = 64, "a number";
    Include = 65, "the word `include`";
    With = 66, "the word `with`";
}

impl Token {
    /// The kind's number, as in a listing's rows.
    pub fn kind(self) -> u32 {
        self as u32
    }

    /// The kind with a number, if it is one.
    pub fn from_kind(kind: u32) -> Option<Token> {
        let index = usize::try_from(kind).ok()?;
        Token::ALL.get(index).copied()
    }
}

impl fmt::Display for Token {
    fn fmt(&self, f: &mut fmt::Formatter<'_>) -> fmt::Result {
        f.pad(self.describe())
    }
}

#[cfg(test)]
mod tests {
    use super::*;

    #[test]
    fn numbers_are_the_order() {
        for (number, token) in (0..).zip(Token::ALL) {
            assert_eq!(token.kind(), number);
            assert_eq!(Token::from_kind(number), Some(token));
        }
        assert_eq!(Token::from_kind(67), None);
        assert_eq!(Token::from_kind(u32::MAX), None);
    }

    #[test]
    fn names_are_without_the_low_line() {
        assert_eq!(Token::String_.name(), "String");
        assert_eq!(Token::RArrow.name(), "RArrow");
        assert_eq!(format!("{:<3}|", Token::Equals), "`=`|");
    }
}
