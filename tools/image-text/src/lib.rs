//! Images of document 01 as text, and back into the same bytes.

pub mod bytes;
pub mod diff;
mod lex;
mod parse;
pub mod print;
pub mod tree;

pub use bytes::{read_image, Fault, Limits, RETURNED, SUBMITTED};
pub use parse::Mistake;

/// The bytes of a text: what `print` made of them, or what someone wrote.
pub fn read_text(text: &[u8], limits: Limits) -> Result<Vec<u8>, Mistake> {
    let image = parse::parse(text)?;
    let written = bytes::write_image(&image).map_err(|(place, reason)| Mistake::at(text, place, reason))?;
    match read_image(&written.bytes, limits) {
        Ok(_) => Ok(written.bytes),
        Err(fault) => Err(Mistake::at(text, written.place(fault.offset), format!("fault {}: {}", fault.number, fault.reason))),
    }
}

/// The text of an image.
pub fn print_image(bytes: &[u8], limits: Limits, offsets: bool) -> Result<String, Fault> {
    let image = read_image(bytes, limits)?;
    Ok(print::image_text(&image, bytes.len(), offsets))
}
