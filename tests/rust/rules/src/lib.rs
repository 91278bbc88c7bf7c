//! The rules of docs/RULES.md once more, in plain Rust, written from the documents and not from our code.
//!
//! What a run holds every refusal, and every lent word, against; where the rules accept, the unchanged Rust
//! is held against too. Made to be read: sums in i64 or i128, one check after another, float methods of std but for min
//! and max.
//! Every call has the exported call's parameters, and gives the refusal number.

pub mod answers;
pub mod backdrop;
pub mod bands;
pub mod boxes;
pub mod check;
pub mod checks;
pub mod count;
pub mod draw;
pub mod fill;
pub mod fine;
pub mod floats;
pub mod frame;
pub mod hand_out;
pub mod limits;
pub mod lists;
pub mod outlines;
pub mod page;
pub mod picture;
pub mod pixel;
pub mod present;
pub mod records;
pub mod recount;
pub mod sizes;
pub mod svg;
pub mod tile;
pub mod walk;

pub use answers::answers;
pub use backdrop::backdrop;
pub use bands::fine_rows;
pub use boxes::boxes;
pub use check::check;
pub use count::{count, count_seen, Seen};
pub use draw::draw;
pub use fill::fill;
pub use fine::fine;
pub use frame::frame;
pub use hand_out::hand_out;
pub use lists::write_lists;
pub use outlines::outlines;
pub use page::picture_of;
pub use picture::{ppm_read, ppm_write};
pub use pixel::{pixel, pixel_area};
pub use present::present;
pub use recount::recount;
pub use sizes::sizes;
pub use svg::svg_lines;
pub use tile::tile;
