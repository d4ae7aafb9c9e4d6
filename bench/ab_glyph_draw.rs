//! Does over ttf-parser and ab_glyph_rasterizer what `tt_render draw` does, to be measured beside it:
//!
//!     ab_glyph_draw SIZE MARGIN FONT TEXT
//!
//! writes the line of a UTF-8 text as P4, at SIZE pixels per em with MARGIN pixels round it. The rasterizer answers how
//! much of a pixel is covered, of 1.0; black is from 0.5 on. Advances are rounded to whole pixels; ascent and descent
//! are hhea's, rounded up. A glyph stands where its points say, which is right where its left side bearing is its least
//! x, as in the fonts that are measured.

use std::error::Error;
use std::io::Write;

use ab_glyph_rasterizer::{point, Point, Rasterizer};
use ttf_parser::{Face, GlyphId, OutlineBuilder, Rect};

struct Picture {
    width: i64,
    height: i64,
    stride: usize,
    /// Rows above the base line.
    base: i64,
    bits: Vec<u8>,
}

enum Piece {
    Line(Point, Point),
    Quad(Point, Point, Point),
}

/// The pieces of a glyph's outline, in pixels and with y downwards, as ab_glyph itself collects them.
struct Pieces {
    scale: f32,
    start: Point,
    last: Point,
    list: Vec<Piece>,
}

impl Pieces {
    fn at(&self, x: f32, y: f32) -> Point {
        point(x * self.scale, -y * self.scale)
    }
}

impl OutlineBuilder for Pieces {
    fn move_to(&mut self, x: f32, y: f32) {
        self.start = self.at(x, y);
        self.last = self.start;
    }

    fn line_to(&mut self, x: f32, y: f32) {
        let to = self.at(x, y);
        self.list.push(Piece::Line(self.last, to));
        self.last = to;
    }

    fn quad_to(&mut self, x1: f32, y1: f32, x: f32, y: f32) {
        let (control, to) = (self.at(x1, y1), self.at(x, y));
        self.list.push(Piece::Quad(self.last, control, to));
        self.last = to;
    }

    /// TrueType has none.
    fn curve_to(&mut self, _: f32, _: f32, _: f32, _: f32, _: f32, _: f32) {}

    fn close(&mut self) {
        self.list.push(Piece::Line(self.last, self.start));
        self.last = self.start;
    }
}

/// A length in font units as whole pixels, the nearest, and from halves the upper.
fn pixels(units: i64, size: i64, em: i64) -> i64 {
    (2 * units * size + em).div_euclid(2 * em)
}

/// The glyph and the pen of each character, and where the line ends.
fn lay(face: &Face, size: i64, text: &str) -> (Vec<(GlyphId, i64)>, i64) {
    let em = i64::from(face.units_per_em());
    let mut end = 0;
    let mut places = Vec::new();
    for character in text.chars() {
        let glyph = face.glyph_index(character).unwrap_or(GlyphId(0));
        places.push((glyph, end));
        end += pixels(i64::from(face.glyph_hor_advance(glyph).unwrap_or(0)), size, em);
    }
    (places, end)
}

fn white(face: &Face, size: i64, margin: i64, advances: i64) -> Picture {
    let em = i64::from(face.units_per_em());
    let hhea = face.tables().hhea;
    let rise = -(-i64::from(hhea.ascender) * size).div_euclid(em);
    let depth = -(i64::from(hhea.descender) * size).div_euclid(em);
    let (width, height) = (advances + 2 * margin, rise + depth + 2 * margin);
    let stride = (width as usize + 7) / 8;
    Picture { width, height, stride, base: rise + margin, bits: vec![0; stride * height as usize] }
}

/// Draws the pieces of one glyph, whose box is in font units, with the origin at a column of the picture.
fn draw(raster: &mut Rasterizer, pieces: &Pieces, seen: Rect, left: i64, to: &mut Picture) {
    let low = point((f32::from(seen.x_min) * pieces.scale).floor(), (-f32::from(seen.y_max) * pieces.scale).floor());
    let high = point((f32::from(seen.x_max) * pieces.scale).ceil(), (-f32::from(seen.y_min) * pieces.scale).ceil());
    raster.reset((high.x - low.x) as usize, (high.y - low.y) as usize);
    for piece in &pieces.list {
        match *piece {
            Piece::Line(from, to) => raster.draw_line(from - low, to - low),
            Piece::Quad(from, control, to) => raster.draw_quad(from - low, control - low, to - low),
        }
    }
    let (column, row) = (left + low.x as i64, to.base + low.y as i64);
    let (width, height, stride) = (to.width, to.height, to.stride);
    raster.for_each_pixel_2d(|x, y, covered| {
        let (c, r) = (column + i64::from(x), row + i64::from(y));
        if covered >= 0.5 && (0..width).contains(&c) && (0..height).contains(&r) {
            to.bits[r as usize * stride + c as usize / 8] |= 0x80 >> (c % 8);
        }
    });
}

fn draw_line(size: i64, margin: i64, font: &[u8], text: &str) -> Result<Picture, Box<dyn Error>> {
    let face = Face::from_slice(font, 0)?;
    let (places, end) = lay(&face, size, text);
    let mut picture = white(&face, size, margin, end);
    let scale = size as f32 / f32::from(face.units_per_em());
    let mut pieces = Pieces { scale, start: Point::default(), last: Point::default(), list: Vec::new() };
    let mut raster = Rasterizer::new(0, 0);
    for (glyph, pen) in places {
        pieces.list.clear();
        if let Some(seen) = face.outline_glyph(glyph, &mut pieces) {
            draw(&mut raster, &pieces, seen, margin + pen, &mut picture);
        }
    }
    Ok(picture)
}

fn main() -> Result<(), Box<dyn Error>> {
    let words: Vec<String> = std::env::args().skip(1).collect();
    let picture = match &words[..] {
        [size, margin, font, text] => draw_line(size.parse()?, margin.parse()?, &std::fs::read(font)?, text)?,
        _ => return Err("the words are SIZE MARGIN FONT TEXT".into()),
    };
    let mut out = std::io::stdout().lock();
    write!(out, "P4\n{} {}\n", picture.width, picture.height)?;
    out.write_all(&picture.bits)?;
    Ok(out.flush()?)
}
