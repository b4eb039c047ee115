//! The new side: the static library through its C header.

#[path = "../../../bindings/rust/src/ffi/declared.rs"]
mod declared;

use crate::call::{Ask, Call, Numbers};
use crate::lent::Lent;
use declared::*;

/// Makes a call of the library over lent memory.
pub fn run(call: &Call, lent: &mut Lent) -> Numbers {
    match call.ask {
        ask if ask.lends_words() => run_on(call, lent.words(), &mut []),
        Ask::String => run_on(call, &mut [], lent.bytes()),
        _ => run_on(call, &mut [], &mut []),
    }
}

/// The same over plain slices. Inlined, so that where the call is known nothing but the library's own work is left.
#[inline(always)]
pub fn run_on(call: &Call, words: &mut [u32], bytes: &mut [u8]) -> Numbers {
    let (text, length, offset) = (call.bytes.as_ptr(), call.bytes.len(), call.offset);
    let mut cursor = Cursor { at: call.from };
    // Safe by the header: each pointer goes with its slice's length, and no lent slice overlaps another argument.
    unsafe {
        match call.ask {
            Ask::Open => {
                let r = witbox_open(text, length, offset);
                Numbers {
                    number: r.number,
                    position: r.position,
                    detail: r.detail,
                    cursor: r.count,
                    ..Numbers::default()
                }
            }
            Ask::NextRaw => {
                let r = witbox_next_raw(text, length, offset, &mut cursor);
                stepped(r, cursor)
            }
            Ask::Next => {
                let r = witbox_next(text, length, offset, &mut cursor);
                stepped(r, cursor)
            }
            Ask::Eat => {
                let r = witbox_eat(text, length, offset, call.a, &mut cursor);
                stepped(r, cursor)
            }
            Ask::Expect => {
                let r = witbox_expect(text, length, offset, call.a, &mut cursor);
                stepped(r, cursor)
            }
            Ask::ListRaw => counted(witbox_list_raw(
                text,
                length,
                offset,
                words.as_mut_ptr(),
                words.len(),
            )),
            Ask::List => counted(witbox_list(
                text,
                length,
                offset,
                words.as_mut_ptr(),
                words.len(),
            )),
            Ask::String => counted(witbox_string_literal(
                text,
                length,
                offset,
                call.a,
                call.b,
                bytes.as_mut_ptr(),
                bytes.len(),
            )),
            Ask::Id => named(witbox_parse_id(text, length, offset, call.a, call.b)),
            Ask::ExplicitId => named(witbox_parse_explicit_id(
                text, length, offset, call.a, call.b,
            )),
            Ask::Sort | Ask::Propose => {
                let order = if matches!(call.ask, Ask::Sort) {
                    witbox_toposort
                } else {
                    witbox_propose
                };
                counted(order(
                    call.sheet.as_ptr(),
                    call.sheet.len(),
                    text,
                    length,
                    words.as_mut_ptr(),
                    words.len(),
                ))
            }
            Ask::CheckOrder => {
                let r = witbox_check_order(
                    call.sheet.as_ptr(),
                    call.sheet.len(),
                    text,
                    length,
                    call.list.as_ptr(),
                    call.list.len(),
                );
                Numbers {
                    number: r.number,
                    position: r.position,
                    detail: r.detail,
                    ..Numbers::default()
                }
            }
        }
    }
}

fn stepped(r: Step, cursor: Cursor) -> Numbers {
    Numbers {
        number: r.number,
        position: r.position,
        detail: r.detail,
        x: r.kind,
        y: r.start,
        z: r.end,
        cursor: cursor.at,
    }
}

fn counted(r: Counted) -> Numbers {
    Numbers {
        number: r.number,
        position: r.position,
        detail: r.detail,
        x: r.count,
        ..Numbers::default()
    }
}

fn named(r: Named) -> Numbers {
    Numbers {
        number: r.number,
        position: r.position,
        detail: r.detail,
        x: r.place,
        y: r.length,
        ..Numbers::default()
    }
}
