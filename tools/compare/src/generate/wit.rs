//! Realistic WIT: packages, interfaces, worlds, types, functions and comments, with names and remarks of one tongue.

use std::fmt::Write;

use crate::rng::Rng;

/// The words of a source that its maker chooses. The few names that a shape below fixes are not among them.
pub struct Tongue {
    nouns: [&'static str; 24],
    verbs: [&'static str; 12],
    remarks: [&'static str; 8],
    /// A remark that stands above most lines of a long source.
    pub remark: &'static str,
}

/// The names that most plug-ins have.
pub static ENGLISH: Tongue = Tongue {
    nouns: [
        "alarm", "booking", "camera", "door", "elevator", "floor", "guest", "heater", "invoice",
        "job", "key-card", "lamp", "minibar", "note", "order", "price", "quota", "room", "sensor",
        "tariff", "unit", "valve", "window", "zone",
    ],
    verbs: [
        "open", "close", "read", "write", "list-all", "find", "start", "stop", "count", "reset",
        "check-in", "notify",
    ],
    remarks: [
        "Answers nothing where the guest has left.",
        "The unit is a tenth of a degree.",
        "See the manual of the lock maker, chapter 4.",
        "Kept for the old panels; new ones use the event stream.",
        "Caller must hold the key.",
        "Größe in Metern; naïve rounding is fine here.",
        "Both ends are included.",
        "At most 64 entries.",
    ],
    remark: "Says what the caller may rely on here, and what is left to the panel's maker.",
};

/// The names of a Greek chain.
pub static GREEK: Tongue = Tongue {
    nouns: [
        "συναγερμός",
        "κράτηση",
        "κάμερα",
        "πόρτα",
        "ανελκυστήρας",
        "όροφος",
        "επισκέπτης",
        "θερμαντήρας",
        "τιμολόγιο",
        "εργασία",
        "κάρτα-κλειδί",
        "λάμπα",
        "ψυγείο",
        "σημείωση",
        "παραγγελία",
        "τιμή",
        "όριο",
        "δωμάτιο",
        "αισθητήρας",
        "χρέωση",
        "μονάδα",
        "βαλβίδα",
        "παράθυρο",
        "ζώνη",
    ],
    verbs: [
        "άνοιξε",
        "κλείσε",
        "διάβασε",
        "γράψε",
        "δείξε-όλα",
        "βρες",
        "ξεκίνα",
        "σταμάτα",
        "μέτρησε",
        "μηδένισε",
        "καλωσόρισε",
        "ειδοποίησε",
    ],
    remarks: [
        "Δεν απαντά τίποτα όταν ο επισκέπτης έχει φύγει.",
        "Η μονάδα είναι ένα δέκατο του βαθμού.",
        "Δείτε το εγχειρίδιο της κλειδαριάς, κεφάλαιο 4.",
        "Για τους παλιούς πίνακες.",
        "Χρειάζεται το κλειδί.",
        "Μήκος σε μέτρα.",
        "Και τα δύο άκρα μετράνε.",
        "Το πολύ 64 εγγραφές.",
    ],
    remark: "Λέει σε τι μπορεί να βασιστεί όποιος καλεί.",
};

const TYPES: [&str; 18] = [
    "u8",
    "u16",
    "u32",
    "u64",
    "s8",
    "s32",
    "f32",
    "f64",
    "bool",
    "char",
    "string",
    "list<u8>",
    "option<string>",
    "result<u32, string>",
    "tuple<u32, u64>",
    "stream<u8>",
    "future<string>",
    "borrow<handle>",
];

/// What writes a source.
struct Writer<'a> {
    rng: &'a mut Rng,
    tongue: &'static Tongue,
    out: String,
}

/// A source of about so many bytes.
pub fn source(rng: &mut Rng, tongue: &'static Tongue, size: usize) -> String {
    let newline = if rng.one_in(5) { "\r\n" } else { "\n" };
    let mut writer = Writer {
        rng,
        tongue,
        out: String::new(),
    };
    let mut made: Vec<String> = Vec::new();
    let name = writer.noun();
    let version = writer.rng.below(10);
    writer.line(&format!("package hotel:{name}@1.{version}.0;\n"));
    while writer.out.len() < size {
        let name = format!("{}-{}", writer.noun(), made.len());
        writer.interface(&name, &made);
        made.push(name);
    }
    if writer.rng.one_in(2) {
        writer.world(&made);
    }
    writer.out.replace('\n', newline)
}

impl Writer<'_> {
    fn noun(&mut self) -> &'static str {
        self.rng.of(&self.tongue.nouns)
    }

    fn kind(&mut self) -> &'static str {
        self.rng.of(&TYPES)
    }

    fn line(&mut self, line: &str) {
        writeln!(self.out, "{line}").unwrap();
    }

    fn interface(&mut self, name: &str, made: &[String]) {
        self.remark("");
        self.line(&format!("interface {name} {{"));
        for _ in 0..self.rng.below(3) {
            let from = match made.len() {
                0 => continue,
                n => &made[self.rng.below(n)],
            };
            let (what, other) = (self.noun(), self.noun());
            self.line(&format!("  use {from}.{{{what}, {other} as other}};"));
        }
        for _ in 0..1 + self.rng.below(4) {
            match self.rng.below(6) {
                0 => self.record(),
                1 => self.variant(),
                2 => {
                    let (name, kind) = (self.noun(), self.kind());
                    self.line(&format!("  type {name} = {kind};"));
                }
                3 => self.line("  flags rights { read, write, %resource }"),
                4 => self.resource(),
                _ => self.function("  "),
            }
        }
        self.line("}\n");
    }

    fn remark(&mut self, indent: &str) {
        let text = self.rng.of(&self.tongue.remarks);
        match self.rng.below(6) {
            0 => self.line(&format!("{indent}/// {text}")),
            1 => self.line(&format!("{indent}// {text}")),
            2 => self.line(&format!("{indent}/* {text} /* and more */ */")),
            _ => {}
        }
    }

    fn record(&mut self) {
        self.remark("  ");
        let name = self.noun();
        self.line(&format!("  record {name} {{"));
        for i in 0..1 + self.rng.below(5) {
            self.remark("    ");
            let (name, kind) = (self.noun(), self.kind());
            self.line(&format!("    {name}-{i}: {kind},"));
        }
        self.line("  }");
    }

    fn variant(&mut self) {
        let name = self.noun();
        self.line(&format!("  variant {name}-kind {{"));
        for _ in 0..1 + self.rng.below(4) {
            let (name, kind) = (self.noun(), self.kind());
            self.line(&format!("    {name}({kind}),"));
        }
        self.line("    none,\n  }");
    }

    fn resource(&mut self) {
        self.line("  resource handle {\n    constructor(id: u64);");
        self.function("    ");
        self.line("    make: static func() -> own<handle>;\n  }");
    }

    fn function(&mut self, indent: &str) {
        self.remark(indent);
        let is_async = if self.rng.one_in(4) { "async " } else { "" };
        let verb = self.rng.of(&self.tongue.verbs);
        let mut takes = Vec::new();
        for _ in 0..self.rng.below(4) {
            takes.push(format!("{}: {}", self.noun(), self.kind()));
        }
        let (takes, kind) = (takes.join(", "), self.kind());
        self.line(&format!(
            "{indent}{verb}: {is_async}func({takes}) -> {kind};"
        ));
    }

    fn world(&mut self, made: &[String]) {
        self.line("world panel {\n  include base with { a as b }");
        for name in made {
            let word = self.rng.pick(&["import", "export"]);
            self.line(&format!("  {word} {name};"));
        }
        self.line("}");
    }
}
