//! What a text is drawn with, and what a call gives back.
use crate::c;
use crate::variation::Place;

/// The ways to fit outlines to the pixels.
#[derive(Clone, Copy, Debug, Default, PartialEq, Eq)]
#[non_exhaustive]
pub enum Fit {
    /// By the font's programs; if a glyph's program is refused, so is the text.
    Full = 0,
    /// Not fitted.
    None = 1,
    /// As `Full`, but a glyph with a refused program is drawn unfitted.
    Fallback = 2,
    /// As `Fallback`, with the whole instruction set, bounded work and filled dropouts.
    #[default]
    Best = 3,
}

/// Where the shorter lines of a label stand.
#[derive(Clone, Copy, Debug, Default, PartialEq, Eq)]
#[non_exhaustive]
pub enum Align {
    /// At the left.
    #[default]
    Left = 0,
    /// In the middle.
    Centre = 1,
    /// At the right.
    Right = 2,
}

/// A request to draw a text.
#[derive(Clone, Copy, Debug, PartialEq, Eq)]
#[non_exhaustive]
pub struct Job {
    /// Pixels per em, 1 to 300.
    pub size: u32,
    /// Pixels round the line, 0 to 64.
    pub margin: u32,
    /// The way to fit.
    pub fit: Fit,
    /// Whether the picture is enlarged where it would cut ink.
    pub grow: bool,
    /// Whether pairs of characters such as AV are moved nearer, by the font's tables. It pays from size 16 on.
    pub kern: bool,
    /// Whether ascent and descent are each rounded to the nearest row, and not up. Then box drawing characters join, of
    /// pictures that are set one below the other.
    pub rounded: bool,
    /// Whether `Font::labels` gives a picture without a pixel for an empty text, and does not refuse it.
    pub blank: bool,
}

impl Job {
    /// A request that is fitted with `Fit::Best`, and grown.
    pub fn of_size(size: u32) -> Job {
        Job {
            size,
            margin: 0,
            fit: Fit::Best,
            grow: true,
            kern: false,
            rounded: false,
            blank: false,
        }
    }

    pub(crate) fn of_font(&self, face: u32, place: &Place) -> c::Job {
        let Job {
            size,
            margin,
            fit,
            grow,
            kern,
            rounded,
            blank,
        } = *self;
        c::Job {
            size,
            margin,
            fit: fit as u32,
            grow: grow.into(),
            face,
            kern: kern.into(),
            rounded: rounded.into(),
            blank: blank.into(),
            instance: place.instance,
            axes: place.axes,
            axis: place.axis,
        }
    }
}

/// A request to draw a label.
#[derive(Clone, Copy, Debug, PartialEq, Eq)]
#[non_exhaustive]
pub struct LabelJob {
    /// Pixels per em, 1 to 300.
    pub size: u32,
    /// Pixels round the lines, 0 to 64.
    pub margin: u32,
    /// The way to fit.
    pub fit: Fit,
    /// Whether pairs of characters such as AV are moved nearer, by the font's tables.
    pub kern: bool,
    /// Whether ascent and descent are each rounded to the nearest row, and not up.
    pub rounded: bool,
    /// Where the shorter lines stand.
    pub align: Align,
    /// The columns of the picture, whose lines are then broken into rows, and whose ink past the sides is cut; or 0 for
    /// a picture as large as its lines and their ink.
    pub width: u32,
    /// The columns and the rows of the picture, which then has the text at the greatest size of at most `size` at which
    /// the text fits: no word is broken, and no ink is cut.
    pub box_size: Option<(u32, u32)>,
}

impl LabelJob {
    /// A request that is fitted with `Fit::Best`, as large as its lines.
    pub fn of_size(size: u32) -> LabelJob {
        LabelJob {
            size,
            margin: 0,
            fit: Fit::Best,
            kern: false,
            rounded: false,
            align: Align::Left,
            width: 0,
            box_size: None,
        }
    }

    pub(crate) fn of_font(&self, face: u32, place: &Place) -> c::LabelJob {
        let LabelJob {
            size,
            margin,
            fit,
            kern,
            rounded,
            align,
            width,
            box_size,
        } = *self;
        // In C two sides of 0 are no box. As a box they are refused.
        let (box_width, box_height) = match box_size {
            None => (0, 0),
            Some((0, 0)) => (0, u32::MAX),
            Some(sides) => sides,
        };
        c::LabelJob {
            size,
            margin,
            fit: fit as u32,
            face,
            kern: kern.into(),
            rounded: rounded.into(),
            align: align as u32,
            width,
            box_width,
            box_height,
            instance: place.instance,
            axes: place.axes,
            axis: place.axis,
        }
    }
}

/// A picture.
#[derive(Clone, Debug, PartialEq, Eq)]
pub struct Picture {
    /// Its size and base line.
    pub shape: c::Shape,
    /// Its rows, the highest first, of `row_bytes` each. The leftmost pixel is the highest bit of the first byte; 1 is
    /// black.
    pub rows: Vec<u8>,
}

impl Picture {
    /// Says whether a pixel is black; none is outside the picture.
    pub fn is_black(&self, column: u32, row: u32) -> bool {
        let byte = u64::from(row) * self.shape.row_bytes + u64::from(column / 8);
        column < self.shape.width
            && self
                .rows
                .get(byte as usize)
                .map_or(false, |it| it >> (7 - column % 8) & 1 == 1)
    }

    /// Returns the picture as a file in the format PBM (P4).
    pub fn pbm(&self) -> Vec<u8> {
        let mut file = format!("P4\n{} {}\n", self.shape.width, self.shape.height).into_bytes();
        file.extend_from_slice(&self.rows);
        file
    }
}

/// A label.
#[derive(Clone, Debug, PartialEq, Eq)]
#[non_exhaustive]
pub struct Label {
    /// Its picture, with the base line of the first row.
    pub picture: Picture,
    /// The size that was drawn, in pixels per em.
    pub size: u64,
    /// The columns of ink that were cut at the left.
    pub cut_left: u64,
    /// The columns of ink that were cut at the right.
    pub cut_right: u64,
    /// The distinct characters without a glyph.
    pub missing: u64,
}

impl Label {
    pub(crate) fn of(told: c::Label, rows: Vec<u8>) -> Label {
        let c::Label {
            picture: shape,
            size,
            cut_left,
            cut_right,
            missing,
        } = told;
        Label {
            picture: Picture { shape, rows },
            size,
            cut_left,
            cut_right,
            missing,
        }
    }
}

/// The size of a text's picture, and the box of all ink, which may reach past the picture's edges.
#[derive(Clone, Copy, Debug, PartialEq, Eq)]
#[non_exhaustive]
pub struct Measure {
    /// Pixels in a row.
    pub width: u32,
    /// Rows.
    pub height: u32,
    /// Rows above the base line.
    pub baseline: i64,
    /// The distinct glyphs drawn unfitted although the job requests fitting.
    pub unfitted: u64,
    /// The box of all ink, where anything is black.
    pub ink: Option<c::PixelBox>,
}

impl From<c::Measure> for Measure {
    fn from(it: c::Measure) -> Measure {
        let c::Measure {
            width,
            height,
            baseline,
            unfitted,
            has_ink,
            ink,
        } = it;
        Measure {
            width,
            height,
            baseline,
            unfitted,
            ink: (has_ink != 0).then_some(ink),
        }
    }
}

/// A character of a text, in its picture's columns and rows.
#[derive(Clone, Copy, Debug, PartialEq, Eq)]
#[non_exhaustive]
pub struct Character {
    /// 0 where the font has none for the character.
    pub glyph: u32,
    /// Columns to the next character's origin.
    pub advance: u32,
    /// The column of the origin.
    pub pen: i64,
    /// The box of its ink, where anything is black.
    pub ink: Option<c::PixelBox>,
    /// Where the character begins, in bytes from the start of the text.
    pub offset: u64,
}

impl From<c::Character> for Character {
    fn from(it: c::Character) -> Character {
        let c::Character {
            glyph,
            advance,
            pen,
            has_ink,
            ink,
            offset,
        } = it;
        Character {
            glyph,
            advance,
            pen,
            ink: (has_ink != 0).then_some(ink),
            offset,
        }
    }
}

/// The underline of a font at a size.
#[derive(Clone, Copy, Debug, PartialEq, Eq)]
#[non_exhaustive]
pub struct Underline {
    /// Rows from the base line up to its upper edge, so mostly negative.
    pub top: i64,
    /// Its rows, at least 1.
    pub thickness: u64,
}

/// A font at a size, without a text.
#[derive(Clone, Copy, Debug, PartialEq, Eq)]
#[non_exhaustive]
pub struct Strike {
    /// Rows of a line above its base line, without a margin.
    pub rise: i64,
    /// Rows of a line below its base line, without a margin.
    pub depth: i64,
    /// Rows between two lines.
    pub gap: u64,
    /// Rows from one base line to the next.
    pub step: u64,
    /// The underline, where the font tells one.
    pub underline: Option<Underline>,
}

impl From<c::Strike> for Strike {
    fn from(it: c::Strike) -> Strike {
        let c::Underline {
            exists,
            top,
            thickness,
        } = it.underline;
        Strike {
            rise: it.rise,
            depth: it.depth,
            gap: it.gap,
            step: it.step,
            underline: (exists != 0).then_some(Underline { top, thickness }),
        }
    }
}

/// The bitmaps of a list of glyphs.
#[derive(Clone, Debug, PartialEq, Eq)]
pub struct Bitmaps {
    /// An entry for each place of the list. A refused glyph has its refusal in its entry.
    pub entries: Vec<c::Bitmap>,
    /// The rows of all glyphs, each glyph once.
    pub rows: Vec<u8>,
}

impl Bitmaps {
    /// Returns the rows of an entry, the highest first, of `(width + 7) / 8` bytes each.
    pub fn rows_of(&self, entry: &c::Bitmap) -> &[u8] {
        let bytes = (entry.width as usize + 7) / 8 * entry.height as usize;
        &self.rows[entry.at as usize..][..bytes]
    }
}
