//! A picture of a register description: one page of HTML, which refers to nothing outside it.
//!
//! It shows each register as a row of bit cells, read and written, and who has which bit; for each
//! variable the accesses of a write and a read, in order, with their numbers; and for a variable in
//! several registers the story of its write, step by step, with what a read says of a station that
//! stops there.
//!
//! What the page says comes from the proved archive: the description is loaded by it, its tables tell
//! who has which bit, and the numbers are those that a station offers and answers at work on a
//! simulated board. A refused text has no page.
//!
//! ```
//! let text = "device d(base:bit[8] port){register r=base:bit[8];variable v=r:int(8);}";
//! let page = picture::page(&desfanuk::Description::load(text).expect("a good description"));
//! assert!(page.starts_with("<!DOCTYPE html>"));
//! assert_eq!(picture::of_text("device").unwrap_err().to_string().get(..11), Some("refused (4)"));
//! ```

mod bits;
mod board;
mod cells;
mod html;
mod listing;
mod map;
mod page;
mod panel;
mod story;
mod storyboard;
mod text;
mod tints;
mod work;

use desfanuk::{Description, Refused};

pub use page::page;

/// The page of a text, or the first rule that it breaks.
pub fn of_text(text: impl Into<Vec<u8>>) -> Result<String, Refused> {
    Ok(page(&Description::load(text)?))
}
