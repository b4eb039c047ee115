//! The declarations of `include/witbox.h` and nothing else, for this crate and for `tools/compare`.

/// `struct witbox_cursor`
#[repr(C)]
#[derive(Clone, Copy)]
pub struct Cursor {
    pub at: u32,
}

/// `struct witbox_step`
#[repr(C)]
pub struct Step {
    pub number: u32,
    pub position: u32,
    pub detail: u32,
    pub kind: u32,
    pub start: u32,
    pub end: u32,
}

/// `struct witbox_opened`, `witbox_listed`, `witbox_decoded` and `witbox_sorted`: the three numbers and one more.
#[repr(C)]
pub struct Counted {
    pub number: u32,
    pub position: u32,
    pub detail: u32,
    pub count: u32,
}

/// `struct witbox_verdict`
#[repr(C)]
pub struct Verdict {
    pub number: u32,
    pub position: u32,
    pub detail: u32,
}

/// `struct witbox_named`
#[repr(C)]
pub struct Named {
    pub number: u32,
    pub position: u32,
    pub detail: u32,
    pub place: u32,
    pub length: u32,
}

extern "C" {
    pub fn witbox_open(text: *const u8, length: usize, offset: u32) -> Counted;
    pub fn witbox_next_raw(
        text: *const u8,
        length: usize,
        offset: u32,
        cursor: *mut Cursor,
    ) -> Step;
    pub fn witbox_next(text: *const u8, length: usize, offset: u32, cursor: *mut Cursor) -> Step;
    pub fn witbox_eat(
        text: *const u8,
        length: usize,
        offset: u32,
        wanted: u32,
        cursor: *mut Cursor,
    ) -> Step;
    pub fn witbox_expect(
        text: *const u8,
        length: usize,
        offset: u32,
        wanted: u32,
        cursor: *mut Cursor,
    ) -> Step;
    pub fn witbox_list_raw(
        text: *const u8,
        length: usize,
        offset: u32,
        table: *mut u32,
        words: usize,
    ) -> Counted;
    pub fn witbox_list(
        text: *const u8,
        length: usize,
        offset: u32,
        table: *mut u32,
        words: usize,
    ) -> Counted;
    pub fn witbox_string_literal(
        text: *const u8,
        length: usize,
        offset: u32,
        start: u32,
        end: u32,
        buffer: *mut u8,
        room: usize,
    ) -> Counted;
    pub fn witbox_parse_id(
        text: *const u8,
        length: usize,
        offset: u32,
        start: u32,
        end: u32,
    ) -> Named;
    pub fn witbox_parse_explicit_id(
        text: *const u8,
        length: usize,
        offset: u32,
        start: u32,
        end: u32,
    ) -> Named;
    pub fn witbox_toposort(
        sheet: *const u32,
        words: usize,
        names: *const u8,
        names_length: usize,
        order: *mut u32,
        room: usize,
    ) -> Counted;
    pub fn witbox_check_order(
        sheet: *const u32,
        words: usize,
        names: *const u8,
        names_length: usize,
        list: *const u32,
        length: usize,
    ) -> Verdict;
    pub fn witbox_propose(
        sheet: *const u32,
        words: usize,
        names: *const u8,
        names_length: usize,
        list: *mut u32,
        room: usize,
    ) -> Counted;
}
