//! One call of an entry point with all it is given, and all that can be seen of its outcome.

/// The entry points, named as in the recorded list.
#[derive(Clone, Copy, PartialEq, Eq, Debug, PartialOrd, Ord)]
pub enum Ask {
    Open,
    NextRaw,
    Next,
    Eat,
    Expect,
    ListRaw,
    List,
    String,
    Id,
    ExplicitId,
    Sort,
    CheckOrder,
    Propose,
}

/// Every entry point, in the header's order.
pub const ASKS: [Ask; 13] = [
    Ask::Open,
    Ask::NextRaw,
    Ask::Next,
    Ask::Eat,
    Ask::Expect,
    Ask::ListRaw,
    Ask::List,
    Ask::String,
    Ask::Id,
    Ask::ExplicitId,
    Ask::Sort,
    Ask::CheckOrder,
    Ask::Propose,
];

impl Ask {
    /// The entry point's word in the recorded list and in what is printed.
    pub fn word(self) -> &'static str {
        match self {
            Ask::Open => "open",
            Ask::NextRaw => "next_raw",
            Ask::Next => "next",
            Ask::Eat => "eat",
            Ask::Expect => "expect",
            Ask::ListRaw => "list_raw",
            Ask::List => "list",
            Ask::String => "string",
            Ask::Id => "id",
            Ask::ExplicitId => "explicit",
            Ask::Sort => "sort",
            Ask::CheckOrder => "check_order",
            Ask::Propose => "propose",
        }
    }

    /// Whether it takes a cursor.
    pub fn steps(self) -> bool {
        matches!(self, Ask::NextRaw | Ask::Next | Ask::Eat | Ask::Expect)
    }

    /// Whether it takes a wanted kind.
    pub fn wants(self) -> bool {
        matches!(self, Ask::Eat | Ask::Expect)
    }

    /// Whether it takes a span.
    pub fn spans(self) -> bool {
        matches!(self, Ask::String | Ask::Id | Ask::ExplicitId)
    }

    /// Whether it takes a sheet.
    pub fn sheets(self) -> bool {
        matches!(self, Ask::Sort | Ask::CheckOrder | Ask::Propose)
    }

    /// Whether it is lent words: a table or an order.
    pub fn lends_words(self) -> bool {
        matches!(self, Ask::ListRaw | Ask::List | Ask::Sort | Ask::Propose)
    }

    /// Whether it is lent memory: words or a buffer.
    pub fn lends(self) -> bool {
        self.lends_words() || self == Ask::String
    }
}

/// A call. What an entry point does not take is 0 or empty.
#[derive(Clone, Copy, Debug)]
pub struct Call<'a> {
    pub ask: Ask,
    /// The text, or a sheet's names.
    pub bytes: &'a [u8],
    /// The text's first position in the map.
    pub offset: u32,
    /// The wanted kind, or a span's start.
    pub a: u32,
    /// A span's end.
    pub b: u32,
    /// How much is lent: words of a table or an order, bytes of a buffer.
    pub room: usize,
    /// A sheet's words.
    pub sheet: &'a [u32],
    /// The words of a proposed order.
    pub list: &'a [u32],
    /// The cursor before a step.
    pub from: u32,
}

impl<'a> Call<'a> {
    /// A call over a text, with nothing else given.
    pub fn new(ask: Ask, bytes: &'a [u8], offset: u32) -> Call<'a> {
        Call {
            ask,
            bytes,
            offset,
            a: 0,
            b: 0,
            room: 0,
            sheet: &[],
            list: &[],
            from: 0,
        }
    }

    /// A step from a cursor.
    pub fn step(ask: Ask, bytes: &'a [u8], offset: u32, from: u32) -> Call<'a> {
        Call {
            from,
            ..Call::new(ask, bytes, offset)
        }
    }

    /// A step that wants a kind.
    pub fn wanting(ask: Ask, bytes: &'a [u8], offset: u32, wanted: u32, from: u32) -> Call<'a> {
        Call {
            a: wanted,
            from,
            ..Call::new(ask, bytes, offset)
        }
    }

    /// A listing into a table of so many words.
    pub fn list(ask: Ask, bytes: &'a [u8], offset: u32, room: usize) -> Call<'a> {
        Call {
            room,
            ..Call::new(ask, bytes, offset)
        }
    }

    /// A question about a span.
    pub fn span(ask: Ask, bytes: &'a [u8], offset: u32, a: u32, b: u32, room: usize) -> Call<'a> {
        Call {
            a,
            b,
            room,
            ..Call::new(ask, bytes, offset)
        }
    }

    /// A sheet to be sorted into an order of so many words.
    pub fn sort(sheet: &'a [u32], names: &'a [u8], room: usize) -> Call<'a> {
        Call {
            sheet,
            room,
            ..Call::new(Ask::Sort, names, 0)
        }
    }

    /// A sheet for which an order of so many words is to be proposed.
    pub fn propose(sheet: &'a [u32], names: &'a [u8], room: usize) -> Call<'a> {
        Call {
            sheet,
            room,
            ..Call::new(Ask::Propose, names, 0)
        }
    }

    /// A proposed order of a sheet, to be checked.
    pub fn check_order(sheet: &'a [u32], names: &'a [u8], list: &'a [u32]) -> Call<'a> {
        Call {
            sheet,
            list,
            ..Call::new(Ask::CheckOrder, names, 0)
        }
    }
}

/// A call that holds what it is given.
#[derive(Clone, Debug)]
pub struct OwnedCall {
    pub ask: Ask,
    pub bytes: Vec<u8>,
    pub offset: u32,
    pub a: u32,
    pub b: u32,
    pub room: usize,
    pub sheet: Vec<u32>,
    pub list: Vec<u32>,
    pub from: u32,
}

impl OwnedCall {
    /// A copy of a call.
    pub fn of(call: &Call) -> OwnedCall {
        OwnedCall {
            ask: call.ask,
            bytes: call.bytes.to_vec(),
            offset: call.offset,
            a: call.a,
            b: call.b,
            room: call.room,
            sheet: call.sheet.to_vec(),
            list: call.list.to_vec(),
            from: call.from,
        }
    }

    /// The call itself.
    pub fn call(&self) -> Call<'_> {
        Call {
            ask: self.ask,
            bytes: &self.bytes,
            offset: self.offset,
            a: self.a,
            b: self.b,
            room: self.room,
            sheet: &self.sheet,
            list: &self.list,
            from: self.from,
        }
    }
}

/// The numbers of an answer and the cursor after the call.
#[derive(Clone, Copy, PartialEq, Eq, Debug, Default)]
pub struct Numbers {
    pub number: u32,
    pub position: u32,
    pub detail: u32,
    /// A token's kind; a count; an identifier's place; the settled count.
    pub x: u32,
    /// A token's start; an identifier's length.
    pub y: u32,
    /// A token's end.
    pub z: u32,
    /// The cursor after a step, or opening's.
    pub cursor: u32,
}

/// What an outcome is to be: the numbers, and what stands at the front of the lent memory. The rest is as it was.
#[derive(Clone, PartialEq, Eq, Debug, Default)]
pub struct Outcome {
    pub numbers: Numbers,
    /// Words written to a table or an order.
    pub words: Vec<u32>,
    /// Bytes written to a buffer.
    pub bytes: Vec<u8>,
}

impl From<Numbers> for Outcome {
    fn from(numbers: Numbers) -> Outcome {
        Outcome {
            numbers,
            ..Outcome::default()
        }
    }
}
