// Read into the same module as lex.rs, so that a tokenizer can be put at any place and asked where it stands.

impl<'a> Tokenizer<'a> {
    /// A tokenizer that is to read next at a place, over text that need not have been opened.
    pub fn at(input: &'a str, span_offset: u32, place: usize) -> Tokenizer<'a> {
        let mut chars = input.char_indices();
        while chars.offset() < place {
            chars.next();
        }
        let chars = CrlfFold { chars };
        Tokenizer {
            input,
            span_offset,
            chars,
        }
    }

    /// The place where it is to read next.
    pub fn place(&self) -> usize {
        self.chars.chars.offset()
    }

    /// The string rule from behind an opening quote at a map position.
    pub fn string_rule(&mut self, quote: u32) -> Result<String, Error> {
        self.expect_string_literal(quote)
    }
}

impl Token {
    /// The token's number: its place in the declaration.
    pub fn number(self) -> u32 {
        self as u32
    }
}
