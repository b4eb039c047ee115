//! Texts, sheets and proposed orders to compare over.

pub mod orders;
mod scripts;
pub mod sheets;
pub mod texts;
pub mod wit;
