//! The C functions of `include/witbox.h`, each behind a safe one over slices. The only unsafe code of this crate.
//!
//! A slice goes over as its pointer and its count. The pointer of an empty slice is not null in Rust, as the header asks. Each
//! function reads and writes inside the slices that it is lent and keeps no pointer; `&mut` sees to it that nothing lent overlaps.

mod declared;

use crate::error::{Error, END};
use crate::{Span, Token};
pub use declared::Cursor;
use declared::*;

type StepCall = unsafe extern "C" fn(*const u8, usize, u32, *mut Cursor) -> Step;
type WantedCall = unsafe extern "C" fn(*const u8, usize, u32, u32, *mut Cursor) -> Step;
type ListCall = unsafe extern "C" fn(*const u8, usize, u32, *mut u32, usize) -> Counted;
type NameCall = unsafe extern "C" fn(*const u8, usize, u32, u32, u32) -> Named;
type OrderCall =
    unsafe extern "C" fn(*const u32, usize, *const u8, usize, *mut u32, usize) -> Counted;

impl Counted {
    fn answer(self) -> Result<u32, Error> {
        match self.number {
            0 => Ok(self.count),
            _ => Err(Error::told(self.number, self.position, self.detail)),
        }
    }
}

/// A token, or none at the end of the text and where eat says no.
type Stepped = Result<Option<(Span, Token)>, Error>;

impl Step {
    fn answer(self) -> Stepped {
        match (self.number, self.kind) {
            (0, END) => Ok(None),
            (0, kind) => match Token::from_kind(kind) {
                Some(token) => Ok(Some((Span::told(self.start, self.end), token))),
                None => Err(Error::told(0, self.start, kind)),
            },
            _ => Err(Error::told(self.number, self.position, self.detail)),
        }
    }
}

/// Where the first step is to read.
pub fn open(text: &[u8], offset: u32) -> Result<Cursor, Error> {
    let answer = unsafe { witbox_open(text.as_ptr(), text.len(), offset) };
    answer.answer().map(|at| Cursor { at })
}

fn step(call: StepCall, text: &[u8], offset: u32, cursor: &mut Cursor) -> Stepped {
    unsafe { call(text.as_ptr(), text.len(), offset, cursor) }.answer()
}

pub fn next_raw(text: &[u8], offset: u32, cursor: &mut Cursor) -> Stepped {
    step(witbox_next_raw, text, offset, cursor)
}

pub fn next(text: &[u8], offset: u32, cursor: &mut Cursor) -> Stepped {
    step(witbox_next, text, offset, cursor)
}

fn wanted(
    call: WantedCall,
    text: &[u8],
    offset: u32,
    token: Token,
    cursor: &mut Cursor,
) -> Stepped {
    unsafe { call(text.as_ptr(), text.len(), offset, token.kind(), cursor) }.answer()
}

pub fn eat(text: &[u8], offset: u32, token: Token, cursor: &mut Cursor) -> Stepped {
    wanted(witbox_eat, text, offset, token, cursor)
}

pub fn expect(text: &[u8], offset: u32, token: Token, cursor: &mut Cursor) -> Stepped {
    wanted(witbox_expect, text, offset, token, cursor)
}

fn listed(call: ListCall, text: &[u8], offset: u32, table: &mut [u32]) -> Result<u32, Error> {
    unsafe {
        call(
            text.as_ptr(),
            text.len(),
            offset,
            table.as_mut_ptr(),
            table.len(),
        )
    }
    .answer()
}

/// How many rows are then at the table's front.
pub fn list_raw(text: &[u8], offset: u32, table: &mut [u32]) -> Result<u32, Error> {
    listed(witbox_list_raw, text, offset, table)
}

pub fn list(text: &[u8], offset: u32, table: &mut [u32]) -> Result<u32, Error> {
    listed(witbox_list, text, offset, table)
}

/// How many bytes are then at the buffer's front.
pub fn string_literal(
    text: &[u8],
    offset: u32,
    span: Span,
    buffer: &mut [u8],
) -> Result<u32, Error> {
    let (start, end) = span.numbers();
    let (room, buffer) = (buffer.len(), buffer.as_mut_ptr());
    unsafe { witbox_string_literal(text.as_ptr(), text.len(), offset, start, end, buffer, room) }
        .answer()
}

/// The place and the length of the identifier.
fn named(call: NameCall, text: &[u8], offset: u32, span: Span) -> Result<(u32, u32), Error> {
    let (start, end) = span.numbers();
    let answer = unsafe { call(text.as_ptr(), text.len(), offset, start, end) };
    match answer.number {
        0 => Ok((answer.place, answer.length)),
        _ => Err(Error::told(answer.number, answer.position, answer.detail)),
    }
}

pub fn parse_id(text: &[u8], offset: u32, span: Span) -> Result<(u32, u32), Error> {
    named(witbox_parse_id, text, offset, span)
}

pub fn parse_explicit_id(text: &[u8], offset: u32, span: Span) -> Result<(u32, u32), Error> {
    named(witbox_parse_explicit_id, text, offset, span)
}

fn ordered(call: OrderCall, sheet: &[u32], names: &[u8], order: &mut [u32]) -> Result<u32, Error> {
    let (room, order) = (order.len(), order.as_mut_ptr());
    let answer = unsafe {
        call(
            sheet.as_ptr(),
            sheet.len(),
            names.as_ptr(),
            names.len(),
            order,
            room,
        )
    };
    match answer.number {
        30 => Err(Error::TypeCycle {
            dependency: answer.detail,
            settled: answer.count,
        }),
        _ => answer.answer(),
    }
}

/// How many dependencies have their target placed. The item numbers are then at the order's front.
pub fn toposort(sheet: &[u32], names: &[u8], order: &mut [u32]) -> Result<u32, Error> {
    ordered(witbox_toposort, sheet, names, order)
}

/// The same; the item numbers are then a list that `check_order` accepts.
pub fn propose(sheet: &[u32], names: &[u8], list: &mut [u32]) -> Result<u32, Error> {
    ordered(witbox_propose, sheet, names, list)
}

pub fn check_order(sheet: &[u32], names: &[u8], list: &[u32]) -> Result<(), Error> {
    let answer = unsafe {
        witbox_check_order(
            sheet.as_ptr(),
            sheet.len(),
            names.as_ptr(),
            names.len(),
            list.as_ptr(),
            list.len(),
        )
    };
    match answer.number {
        0 => Ok(()),
        _ => Err(Error::told(answer.number, answer.position, answer.detail)),
    }
}
