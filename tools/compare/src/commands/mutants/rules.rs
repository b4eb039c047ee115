//! The broken rules: at least one for each section of the paper, and each of its "Errors to rule out".

/// One broken rule: an edit of a file of `src/model`.
pub struct Mutant {
    /// What is broken, in the paper's words.
    pub rule: &'static str,
    /// The file.
    pub file: &'static str,
    /// What stands there once.
    pub old: &'static str,
    /// What is put there.
    pub new: &'static str,
}

/// Edits of `src/model`.
pub const MUTANTS: [Mutant; 45] = [
    Mutant {
        rule: "1 at 65,537 bytes, not before",
        file: "mod.rs",
        old: "TEXT_CAP: usize = 65_536",
        new: "TEXT_CAP: usize = 65_535",
    },
    Mutant {
        rule: "2 past the map's last position, not later",
        file: "mod.rs",
        old: "4_294_967_294",
        new: "4_294_967_295",
    },
    Mutant {
        rule: "overlong forms are ill-formed",
        file: "characters.rs",
        old: "c < least || ",
        new: "",
    },
    Mutant {
        rule: "surrogates are no characters",
        file: "characters.rs",
        old: "0xd800..=0xdfff",
        new: "0xd801..=0xdfff",
    },
    Mutant {
        rule: "nothing above U+10FFFF",
        file: "characters.rs",
        old: "c <= 0x10_ffff",
        new: "c <= 0x11_ffff",
    },
    Mutant {
        rule: "3 goes before screening",
        file: "steps.rs",
        old: "well_formed(text.bytes).map_err(|at| Refusal(3, at as u32, 0))?;\n    screen(text.bytes)?;",
        new: "screen(text.bytes)?;\n    well_formed(text.bytes).map_err(|at| Refusal(3, at as u32, 0))?;",
    },
    Mutant {
        rule: "controls up to U+009F are screened",
        file: "characters.rs",
        old: "0x7f..=0x9f => 4",
        new: "0x7f..=0x9e => 4",
    },
    Mutant {
        rule: "forbidden characters up to U+2069",
        file: "characters.rs",
        old: "0x2066..=0x2069",
        new: "0x2066..=0x2068",
    },
    Mutant {
        rule: "U+02C1 begins a word",
        file: "characters.rs",
        old: "0xf8..=0x2c1",
        new: "0xf8..=0x2c0",
    },
    Mutant {
        rule: "U+02C2 begins no word",
        file: "characters.rs",
        old: "(unicode_ident::is_xid_start)",
        new: "(|c| c == '\\u{2c2}' || unicode_ident::is_xid_start(c))",
    },
    Mutant {
        rule: "a letter of the table begins a word (U+03BB)",
        file: "characters.rs",
        old: "(unicode_ident::is_xid_start)",
        new: "(|c| c != '\\u{3bb}' && unicode_ident::is_xid_start(c))",
    },
    Mutant {
        rule: "a mark begins no word",
        file: "characters.rs",
        old: "(unicode_ident::is_xid_start)",
        new: "(unicode_ident::is_xid_continue)",
    },
    Mutant {
        rule: "a mark goes on with a word (U+0301)",
        file: "characters.rs",
        old: "(unicode_ident::is_xid_continue)",
        new: "(|c| c != '\\u{301}' && unicode_ident::is_xid_continue(c))",
    },
    Mutant {
        rule: "a range has its last character (U+2A6DF)",
        file: "characters.rs",
        old: "(unicode_ident::is_xid_continue)",
        new: "(|c| c != '\\u{2a6df}' && unicode_ident::is_xid_continue(c))",
    },
    Mutant {
        rule: "what came with Unicode 15 is outside (U+1E4D0)",
        file: "characters.rs",
        old: "(unicode_ident::is_xid_start)",
        new: "(|c| c == '\\u{1e4d0}' || unicode_ident::is_xid_start(c))",
    },
    Mutant {
        rule: "U+00B7 continues a word",
        file: "characters.rs",
        old: "0x5f | 0xb7)",
        new: "0x5f)",
    },
    Mutant {
        rule: "opening stands behind a byte order mark",
        file: "steps.rs",
        old: "        3\n",
        new: "        0\n",
    },
    Mutant {
        rule: "CR LF reads as one newline",
        file: "characters.rs",
        old: "Some(&13) && ",
        new: "Some(&12) && ",
    },
    Mutant {
        rule: "no RArrow in a->b",
        file: "tokens.rs",
        old: "if !of(c) {",
        new: "if !of(c) || text.bytes[at..].starts_with(b\"->\") {",
    },
    Mutant {
        rule: "/*/ is no whole comment",
        file: "tokens.rs",
        old: "block(text, start, behind)?",
        new: "block(text, start, behind - 1)?",
    },
    Mutant {
        rule: "block comments nest",
        file: "tokens.rs",
        old: "('*', 1)",
        new: "('*', 0)",
    },
    Mutant {
        rule: "`%` takes a keylike start, not any continuation",
        file: "tokens.rs",
        old: "Some((c, next)) if keylike_start(c)",
        new: "Some((c, next)) if keylike_continuation(c)",
    },
    Mutant {
        rule: "keywords by number (resource and record)",
        file: "kinds.rs",
        old: "(\"record\", 34),\n    (\"resource\", 35)",
        new: "(\"record\", 35),\n    (\"resource\", 34)",
    },
    Mutant {
        rule: "a map position has the offset (7)",
        file: "tokens.rs",
        old: "Refusal(7, text.position(start), c)",
        new: "Refusal(7, start as u32, c)",
    },
    Mutant {
        rule: "a place has no offset (3)",
        file: "tokens.rs",
        old: "Refusal(3, at as u32, 0)",
        new: "Refusal(3, text.position(at), 0)",
    },
    Mutant {
        rule: "23 goes before 22",
        file: "steps.rs",
        old: "    if from as usize > text.bytes.len() {",
        new: "    if ask.wants() && wanted > LAST_KIND {\n        return Err(Refusal(22, 0, 0));\n    }\n    if from as usize > text.bytes.len() {",
    },
    Mutant {
        rule: "expect moves the cursor on 21",
        file: "steps.rs",
        old: "detail: 256 * wanted + kind,\n                        ..moved",
        new: "detail: 256 * wanted + kind,\n                        ..stays",
    },
    Mutant {
        rule: "eat that says no leaves the cursor",
        file: "steps.rs",
        old: "_ if ask == Ask::Eat => Numbers {\n                    x: END_KIND,\n                    ..stays",
        new: "_ if ask == Ask::Eat => Numbers {\n                    x: END_KIND,\n                    ..moved",
    },
    Mutant {
        rule: "24 past 4,096 rows, not at them",
        file: "steps.rs",
        old: "count > ROW_CAP",
        new: "count >= ROW_CAP",
    },
    Mutant {
        rule: "25 gives words, not rows",
        file: "steps.rs",
        old: "Refusal(25, 0, words.len() as u32)",
        new: "Refusal(25, 0, count as u32)",
    },
    Mutant {
        rule: "words behind the rows stay as they were",
        file: "steps.rs",
        old: "    Ok(words)\n}",
        new: "    words.push(0);\n    Ok(words)\n}",
    },
    Mutant {
        rule: "10 for a raw U+007F",
        file: "strings.rs",
        old: "0x00..=0x1f | 0x7f",
        new: "0x00..=0x1f",
    },
    Mutant {
        rule: "16 stands at the first digit",
        file: "strings.rs",
        old: "Refusal(16, first as u32, 0)",
        new: "Refusal(16, self.at as u32, 0)",
    },
    Mutant {
        rule: "18 goes before the closing brace",
        file: "strings.rs",
        old: "                if !scalar(n) {\n                    return Err(Refusal(18, place as u32, n));\n                }\n                self.want('}')?;",
        new: "                self.want('}')?;\n                if !scalar(n) {\n                    return Err(Refusal(18, place as u32, n));\n                }",
    },
    Mutant {
        rule: "14 counts gathered bytes",
        file: "strings.rs",
        old: "text.position(quote), at as u32)",
        new: "text.position(quote), (quote + 1 + at) as u32)",
    },
    Mutant {
        rule: "a part keeps the case of its first letter",
        file: "names.rs",
        old: "*case.get_or_insert(upper) != upper",
        new: "case.replace(upper) == Some(!upper) && upper",
    },
    Mutant {
        rule: "a span's end may not cut a character",
        file: "names.rs",
        old: " || cut(text.bytes, to)",
        new: "",
    },
    Mutant {
        rule: "27 goes before the other header words",
        file: "sheets.rs",
        old: "    if n > ITEM_CAP || e > EDGE_CAP {",
        new: "    if items_at != 5 {\n        return Err(bad);\n    }\n    if n > ITEM_CAP || e > EDGE_CAP {",
    },
    Mutant {
        rule: "first edges run on without a gap",
        file: "sheets.rs",
        old: "row[2] as usize != first || ",
        new: "",
    },
    Mutant {
        rule: "25 goes before 30",
        file: "sheets.rs",
        old: "    if room < count {",
        new: "    if room < count && clerk(count, &edges).len() == count {",
    },
    Mutant {
        rule: "a repeated dependency is settled as often as it is listed",
        file: "sheets.rs",
        old: "edges.iter().filter(|e| placed(e.1)).count() as u32",
        new: "(0..edges.len()).filter(|&i| placed(edges[i].1) && !edges[..i].contains(&edges[i])).count() as u32",
    },
    Mutant {
        rule: "ready items are taken earliest listed first, not first in first out",
        file: "sheets.rs",
        old: "        placed[item] = true;\n        order.push(item as u32);",
        new: "        for item in (item..count).filter(|&i| ready[i]) {\n            placed[item] = true;\n            order.push(item as u32);\n        }",
    },
    Mutant {
        rule: "a proposed order has each dependency before what needs it",
        file: "orders.rs",
        old: "place(target) < place(item)",
        new: "place(target) <= place(item)",
    },
    Mutant {
        rule: "a word that repeats an item is at fault",
        file: "orders.rs",
        old: "earlier.contains(&word) || ",
        new: "",
    },
    Mutant {
        rule: "a short order without a fault gives its length",
        file: "orders.rs",
        old: "fault.unwrap_or(list.len())",
        new: "fault.unwrap_or(count)",
    },
];
