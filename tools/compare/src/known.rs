//! The differences from the Rust that are stated in docs/DIFFERENCES.md, and no others. Each is applied to the Rust's answer before
//! it is held against the library's.
//!
//! One more is built into the way a step is asked: after a refusal the Rust's tokenizer has moved, and the paper's cursor stays (but
//! for 21).

/// A raw U+FEFF directly behind a string's opening quote: the Rust's fresh tokenizer eats it, and the paper's value keeps it.
pub fn decoded(text: &str, quote: usize, value: String) -> Vec<u8> {
    let mark = "\u{feff}";
    let mut bytes = Vec::new();
    if text[quote + 1..].starts_with(mark) {
        bytes.extend(mark.bytes());
    }
    bytes.extend(value.into_bytes());
    bytes
}
