//! The declarations of tt_render.h, in its order, as far as this crate calls them.
use std::os::raw::c_int;

#[repr(C)]
#[derive(Clone, Copy, Debug, Default, PartialEq, Eq)]
pub struct Answer {
    pub status: u32,
    pub number: u32,
    pub table: [u8; 4],
    pub offset: u32,
    pub bytes: u64,
    pub count: u64,
}

/// The figures of a font, in font units except the number of glyphs.
#[repr(C)]
#[derive(Clone, Copy, Debug, Default, PartialEq, Eq)]
#[non_exhaustive]
pub struct Figures {
    /// 16 to 16,384.
    pub units_per_em: u32,
    /// Above the base line.
    pub ascent: i32,
    /// Above the base line, so mostly negative.
    pub descent: i32,
    /// The number of glyphs.
    pub glyphs: u32,
    /// Between the descent of a line and the ascent of the next one.
    pub line_gap: i32,
}

#[repr(C)]
#[derive(Clone, Copy, Debug, Default, PartialEq, Eq)]
pub struct Axis {
    pub tag: u32,
    pub value: i32,
}

#[repr(C)]
pub struct Job {
    pub size: u32,
    pub margin: u32,
    pub fit: u32,
    pub grow: u32,
    pub face: u32,
    pub kern: u32,
    pub rounded: u32,
    pub blank: u32,
    pub instance: u32,
    pub axes: u32,
    pub axis: [Axis; 16],
}

#[repr(C)]
pub struct LabelJob {
    pub size: u32,
    pub margin: u32,
    pub fit: u32,
    pub face: u32,
    pub kern: u32,
    pub rounded: u32,
    pub align: u32,
    pub width: u32,
    pub box_width: u32,
    pub box_height: u32,
    pub instance: u32,
    pub axes: u32,
    pub axis: [Axis; 16],
}

#[repr(C)]
#[derive(Clone, Copy)]
pub struct AxisRange {
    pub tag: u32,
    pub least: i32,
    pub default_value: i32,
    pub greatest: i32,
    pub name: [u8; 68],
}

impl Default for AxisRange {
    fn default() -> AxisRange {
        AxisRange {
            tag: 0,
            least: 0,
            default_value: 0,
            greatest: 0,
            name: [0; 68],
        }
    }
}

#[repr(C)]
#[derive(Clone, Copy)]
pub struct Instance {
    pub instance: u32,
    pub place: [i32; 64],
    pub name: [u8; 68],
}

impl Default for Instance {
    fn default() -> Instance {
        Instance {
            instance: 0,
            place: [0; 64],
            name: [0; 68],
        }
    }
}

/// A picture without its pixels.
#[repr(C)]
#[derive(Clone, Copy, Debug, Default, PartialEq, Eq)]
#[non_exhaustive]
pub struct Shape {
    /// Pixels in a row, 1 to 16,384.
    pub width: u32,
    /// Rows, 1 to 4,096.
    pub height: u32,
    /// `(width + 7) / 8`.
    pub row_bytes: u64,
    /// Rows above the base line, which may be outside the picture.
    pub baseline: i64,
    /// The distinct glyphs drawn unfitted although the job requests fitting.
    pub unfitted: u64,
}

#[repr(C)]
#[derive(Clone, Copy, Default)]
pub struct Label {
    pub picture: Shape,
    pub size: u64,
    pub cut_left: u64,
    pub cut_right: u64,
    pub missing: u64,
}

/// A box of pixels; all four sides are included.
#[repr(C)]
#[derive(Clone, Copy, Debug, Default, PartialEq, Eq)]
pub struct PixelBox {
    /// Its first column.
    pub left: i64,
    /// Its first row.
    pub top: i64,
    /// Its last column.
    pub right: i64,
    /// Its last row.
    pub bottom: i64,
}

#[repr(C)]
#[derive(Clone, Copy, Default)]
pub struct Measure {
    pub width: u32,
    pub height: u32,
    pub baseline: i64,
    pub unfitted: u64,
    pub has_ink: u64,
    pub ink: PixelBox,
}

#[repr(C)]
#[derive(Clone, Copy, Default)]
pub struct Character {
    pub glyph: u32,
    pub advance: u32,
    pub pen: i64,
    pub has_ink: u64,
    pub ink: PixelBox,
    pub offset: u64,
}

/// A character of a text in the font.
#[repr(C)]
#[derive(Clone, Copy, Debug, Default, PartialEq, Eq)]
#[non_exhaustive]
pub struct Glyph {
    /// The character's.
    pub code_point: u32,
    /// 0 where the font has none for the character.
    pub glyph: u32,
    /// In font units.
    pub advance: u32,
    /// The character's variation selector, 0 without one.
    pub selector: u32,
}

#[repr(C)]
#[derive(Clone, Copy, Default)]
pub struct Line {
    pub picture: Shape,
    pub at: u64,
}

/// The bitmap of a glyph: the least box that holds its ink, from the pen and the base line. Unused fields are 0.
#[repr(C)]
#[derive(Clone, Copy, Debug, Default, PartialEq, Eq)]
#[non_exhaustive]
pub struct Bitmap {
    /// The number, as asked for.
    pub glyph: u32,
    /// 0: done. 1: the glyph has a defect. 2: the font has no such glyph, or its ink is too large.
    pub status: u32,
    /// The refusal; with status 0 not 0 where the glyph is unfitted.
    pub number: u32,
    /// The tag of the table that has the defect.
    pub table: [u8; 4],
    /// The defect's offset in it.
    pub offset: u32,
    /// Columns to the next pen.
    pub advance: u32,
    /// Columns from the pen to the first column of ink, rightwards.
    pub left: i32,
    /// Rows from the base line up to the upper edge of the highest row of ink.
    pub top: i32,
    /// Columns of ink.
    pub width: u32,
    /// Rows of ink.
    pub height: u32,
    /// The advance as the font's programs leave it, in 64ths of a pixel.
    pub advance_64ths: i64,
    /// Where its rows begin among all rows.
    pub at: u64,
}

/// The picture of a text without its ink, and what a next line needs.
#[repr(C)]
#[derive(Clone, Copy, Debug, Default, PartialEq, Eq)]
#[non_exhaustive]
pub struct Layout {
    /// Of the picture that does not grow.
    pub width: u32,
    /// Of that picture too.
    pub height: u32,
    /// Rows above the base line, which may be outside the picture.
    pub baseline: i64,
    /// Rows of a line above its base line, without a margin.
    pub rise: i64,
    /// Rows of a line below its base line, without a margin.
    pub depth: i64,
    /// Rows between two lines.
    pub gap: u64,
    /// Rows from one base line to the next.
    pub step: u64,
    /// The characters of the text, without variation selectors.
    pub characters: u64,
}

/// The pen of a character of a text.
#[repr(C)]
#[derive(Clone, Copy, Debug, Default, PartialEq, Eq)]
#[non_exhaustive]
pub struct Pen {
    /// The character's.
    pub code_point: u32,
    /// The character's variation selector, 0 without one.
    pub selector: u32,
    /// 0 where the font has none for the character.
    pub glyph: u32,
    /// Columns to the next pen.
    pub advance: u32,
    /// The column of the picture.
    pub pen: i64,
    /// Where the character begins, in bytes from the start of the text.
    pub offset: u64,
}

#[repr(C)]
#[derive(Clone, Copy, Default)]
pub struct Underline {
    pub exists: u64,
    pub top: i64,
    pub thickness: u64,
}

#[repr(C)]
#[derive(Clone, Copy, Default)]
pub struct Strike {
    pub rise: i64,
    pub depth: i64,
    pub gap: u64,
    pub step: u64,
    pub underline: Underline,
}

extern "C" {
    pub fn tt_supported() -> c_int;
    pub fn tt_faces(font: *const u8, font_bytes: usize, answer: *mut Answer) -> u32;
    pub fn tt_axes(
        font: *const u8,
        font_bytes: usize,
        face: u32,
        axes: *mut AxisRange,
        room: usize,
        answer: *mut Answer,
    ) -> u32;
    pub fn tt_instances(
        font: *const u8,
        font_bytes: usize,
        face: u32,
        instances: *mut Instance,
        room: usize,
        answer: *mut Answer,
    ) -> u32;
    pub fn tt_open_face(
        font: *const u8,
        font_bytes: usize,
        face: u32,
        told: *mut Figures,
        answer: *mut Answer,
    ) -> u32;
    pub fn tt_map_job(
        font: *const u8,
        font_bytes: usize,
        text: *const u8,
        text_bytes: usize,
        job: *const Job,
        glyphs: *mut Glyph,
        room: usize,
        answer: *mut Answer,
    ) -> u32;
    pub fn tt_measure(
        font: *const u8,
        font_bytes: usize,
        text: *const u8,
        text_bytes: usize,
        job: *const Job,
        told: *mut Measure,
        answer: *mut Answer,
    ) -> u32;
    pub fn tt_characters(
        font: *const u8,
        font_bytes: usize,
        text: *const u8,
        text_bytes: usize,
        job: *const Job,
        characters: *mut Character,
        room: usize,
        answer: *mut Answer,
    ) -> u32;
    pub fn tt_strike(
        font: *const u8,
        font_bytes: usize,
        job: *const Job,
        told: *mut Strike,
        answer: *mut Answer,
    ) -> u32;
    pub fn tt_layout(
        font: *const u8,
        font_bytes: usize,
        text: *const u8,
        text_bytes: usize,
        job: *const Job,
        told: *mut Layout,
        answer: *mut Answer,
    ) -> u32;
    pub fn tt_pens(
        font: *const u8,
        font_bytes: usize,
        text: *const u8,
        text_bytes: usize,
        job: *const Job,
        pens: *mut Pen,
        room: usize,
        answer: *mut Answer,
    ) -> u32;
    pub fn tt_draw(
        font: *const u8,
        font_bytes: usize,
        text: *const u8,
        text_bytes: usize,
        job: *const Job,
        rows: *mut u8,
        room: usize,
        told: *mut Shape,
        answer: *mut Answer,
    ) -> u32;
    pub fn tt_label(
        font: *const u8,
        font_bytes: usize,
        text: *const u8,
        text_bytes: usize,
        job: *const LabelJob,
        rows: *mut u8,
        room: usize,
        told: *mut Label,
        answer: *mut Answer,
    ) -> u32;
    pub fn tt_draw_lines(
        font: *const u8,
        font_bytes: usize,
        texts: *const u8,
        text_bytes: usize,
        ends: *const u64,
        ends_count: usize,
        job: *const Job,
        keep: usize,
        rows: *mut u8,
        room: usize,
        lines: *mut Line,
        lines_room: usize,
        answer: *mut Answer,
    ) -> u32;
    pub fn tt_lines_room(
        font: *const u8,
        font_bytes: usize,
        texts: *const u8,
        text_bytes: usize,
        ends: *const u64,
        ends_count: usize,
        job: *const Job,
        keep: usize,
        answer: *mut Answer,
    ) -> u32;
    pub fn tt_glyphs(
        font: *const u8,
        font_bytes: usize,
        glyphs: *const u32,
        count: usize,
        job: *const Job,
        rows: *mut u8,
        room: usize,
        told: *mut Bitmap,
        told_room: usize,
        answer: *mut Answer,
    ) -> u32;
    pub fn tt_message(told: *const Answer, text: *mut u8, room: usize, answer: *mut Answer) -> u32;
}
