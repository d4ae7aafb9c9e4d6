//! Text from TrueType fonts as black and white pictures, by the C library tt_render.
//!
//! ```no_run
//! let bytes = std::fs::read("DejaVuSans.ttf").unwrap();
//! let font = tt_render::Font::new(&bytes)?;
//! let label = font.label("Shelf 12\nleft", 16)?;
//! std::fs::write("label.pbm", label.picture.pbm()).unwrap();
//! # Ok::<(), tt_render::Error>(())
//! ```
//!
//! The library has no state: a `Font` is the caller's bytes and some numbers. tt_render.h describes each call.
//!
//! A variable font is drawn at its default, or at an instance: `font.with_axes(&[(*b"wght", 700.0)])?`, or
//! `font.at_instance_named("Bold")?`. `Font::axes` and `Font::instances` list what a font has.
//!
//! Types that are `#[non_exhaustive]` may get further fields or members. A request is made by `Job::of_size` or
//! `LabelJob::of_size`, and then changed field by field.
#![warn(missing_docs)]

mod c;
mod error;
mod font;
mod picture;
mod variation;

pub use c::{Bitmap, Figures, Glyph, Layout, Pen, PixelBox, Shape};
pub use error::Error;
pub use font::{faces, supported, Font};
pub use picture::{
    Align, Bitmaps, Character, Fit, Job, Label, LabelJob, Measure, Picture, Strike, Underline,
};
pub use variation::{Axis, Instance};
