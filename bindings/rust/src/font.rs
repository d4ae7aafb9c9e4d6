//! The calls of the library, as functions over slices.
use crate::c::{self, Answer, Bitmap, Figures, Glyph, Layout, Line, Pen, Shape};
use crate::error::{done, Error, ROOM};
use crate::picture::{Bitmaps, Character, Fit, Job, Label, LabelJob, Measure, Picture, Strike};
use crate::variation::{Axis, Instance, Place};

/// The room of a first call that draws a text.
const FIRST_ROOM: usize = 1 << 16;
/// The room of a first call that draws several texts, and the glyphs that are cached between them, in bytes.
const LINES_ROOM: usize = 1 << 20;

/// The texts one after the other, and where each ends in that.
fn joined(texts: &[&str]) -> (String, Vec<u64>) {
    let ends = texts.iter().scan(0, |end, it| {
        *end += it.len() as u64;
        Some(*end)
    });
    (texts.concat(), ends.collect())
}

/// Counts the faces of a font file.
pub fn faces(bytes: &[u8]) -> Result<u64, Error> {
    let mut answer = Answer::default();
    // SAFETY: the slice is as long as it says; the answer is another place.
    unsafe { c::tt_faces(bytes.as_ptr(), bytes.len(), &mut answer) };
    Ok(done(answer)?.count)
}

/// Says whether this processor has what the library needs. Where it lacks a feature of x86-64-v2, any other call may
/// end the process.
pub fn supported() -> bool {
    // SAFETY: the call takes nothing, and runs on every processor.
    unsafe { c::tt_supported() != 0 }
}

/// A face of a font file, of a variable font at an instance.
#[derive(Clone, Copy, Debug)]
pub struct Font<'a> {
    bytes: &'a [u8],
    face: u32,
    figures: Figures,
    place: Place,
}

// SAFETY, of each call below: each slice is as long as it says, and what is written is borrowed mutably, so it overlaps
// with nothing. A call needs 64 KiB of stack, which each thread has unless its Builder says less.
impl<'a> Font<'a> {
    /// A font file, of a collection the first face.
    pub fn new(bytes: &'a [u8]) -> Result<Font<'a>, Error> {
        Font::of_face(bytes, 0)
    }

    /// A face of a collection.
    pub fn of_face(bytes: &'a [u8], face: u32) -> Result<Font<'a>, Error> {
        Font::opened(bytes, face.saturating_add(1))
    }

    /// A font file that is no collection, read strictly.
    pub fn strict(bytes: &'a [u8]) -> Result<Font<'a>, Error> {
        Font::opened(bytes, 0)
    }

    fn opened(bytes: &'a [u8], face: u32) -> Result<Font<'a>, Error> {
        let (mut figures, mut answer) = (Figures::default(), Answer::default());
        unsafe { c::tt_open_face(bytes.as_ptr(), bytes.len(), face, &mut figures, &mut answer) };
        done(answer)?;
        Ok(Font {
            bytes,
            face,
            figures,
            place: Place::default(),
        })
    }

    /// The figures of the font; of a variable font those of its default.
    pub fn figures(&self) -> Figures {
        self.figures
    }

    /// Lists the axes of a variable font; none of any other font.
    pub fn axes(&self) -> Result<Vec<Axis>, Error> {
        let (mut told, mut answer) = (vec![c::AxisRange::default(); 64], Answer::default());
        unsafe {
            c::tt_axes(
                self.bytes.as_ptr(),
                self.bytes.len(),
                self.face,
                told.as_mut_ptr(),
                told.len(),
                &mut answer,
            )
        };
        told.truncate(done(answer)?.count as usize);
        Ok(told.iter().map(Axis::from).collect())
    }

    /// Lists the first 256 named instances of a variable font; none of any other font.
    pub fn instances(&self) -> Result<Vec<Instance>, Error> {
        let axes = self.axes()?.len();
        let (mut told, mut answer) = (vec![c::Instance::default(); 256], Answer::default());
        unsafe {
            c::tt_instances(
                self.bytes.as_ptr(),
                self.bytes.len(),
                self.face,
                told.as_mut_ptr(),
                told.len(),
                &mut answer,
            )
        };
        told.truncate(done(answer)?.count as usize);
        Ok(told.iter().map(|it| Instance::of(it, axes)).collect())
    }

    /// The font at a named instance, by the instance's number from 0 on. Values of axes remain.
    pub fn at_instance(self, number: u32) -> Result<Font<'a>, Error> {
        Font {
            place: self.place.of_instance(number.saturating_add(1)),
            ..self
        }
        .tested()
    }

    /// The font at the first named instance with a name. Values of axes remain.
    pub fn at_instance_named(self, name: &str) -> Result<Font<'a>, Error> {
        let listed = self.instances()?;
        let found = listed
            .iter()
            .find(|it| it.name == name && !name.is_empty())
            .map_or(u32::MAX, |it| it.number);
        self.at_instance(found)
    }

    /// The font at values of axes, in the place of the values before. They come after those of the named instance. A
    /// value past an end of its axis is the end.
    pub fn with_axes(self, values: &[([u8; 4], f64)]) -> Result<Font<'a>, Error> {
        Font {
            place: self.place.of_values(values),
            ..self
        }
        .tested()
    }

    /// This font, if it has the instance: a call without a text opens it.
    fn tested(self) -> Result<Font<'a>, Error> {
        self.map("")?;
        Ok(self)
    }

    /// Draws a label: `draw_label` with `LabelJob::of_size`.
    pub fn label(&self, text: &str, size: u32) -> Result<Label, Error> {
        self.draw_label(text, &LabelJob::of_size(size))
    }

    /// Draws a label: a text of several lines in one picture. The font is read widely. An empty text is a picture too.
    /// Letters and accents are composed where the font can.
    pub fn draw_label(&self, text: &str, job: &LabelJob) -> Result<Label, Error> {
        let mut rows = vec![0; FIRST_ROOM];
        loop {
            match self.label_into(text, job, &mut rows) {
                Ok((told, bytes)) => {
                    rows.truncate(bytes);
                    return Ok(Label::of(told, rows));
                }
                Err(error) => match error.wanted() {
                    Some(wanted) => rows = vec![0; wanted as usize],
                    None => return Err(error),
                },
            }
        }
    }

    fn label_into(
        &self,
        text: &str,
        job: &LabelJob,
        rows: &mut [u8],
    ) -> Result<(c::Label, usize), Error> {
        let (mut told, mut answer) = (c::Label::default(), Answer::default());
        unsafe {
            c::tt_label(
                self.bytes.as_ptr(),
                self.bytes.len(),
                text.as_ptr(),
                text.len(),
                &job.of_font(self.face, &self.place),
                rows.as_mut_ptr(),
                rows.len(),
                &mut told,
                &mut answer,
            )
        };
        Ok((told, done(answer)?.bytes as usize))
    }

    /// Draws a line of text.
    pub fn draw(&self, text: &str, job: &Job) -> Result<Picture, Error> {
        let mut rows = vec![0; FIRST_ROOM];
        loop {
            match self.draw_into(text, job, &mut rows) {
                Ok((shape, bytes)) => {
                    rows.truncate(bytes);
                    return Ok(Picture { shape, rows });
                }
                Err(error) => match error.wanted() {
                    Some(wanted) => rows = vec![0; wanted as usize],
                    None => return Err(error),
                },
            }
        }
    }

    /// Draws a line of text into a room, and returns how many of its bytes the rows have. Where the room is too small,
    /// the error has the bytes that are wanted.
    pub fn draw_into(
        &self,
        text: &str,
        job: &Job,
        rows: &mut [u8],
    ) -> Result<(Shape, usize), Error> {
        let (mut shape, mut answer) = (Shape::default(), Answer::default());
        unsafe {
            c::tt_draw(
                self.bytes.as_ptr(),
                self.bytes.len(),
                text.as_ptr(),
                text.len(),
                &job.of_font(self.face, &self.place),
                rows.as_mut_ptr(),
                rows.len(),
                &mut shape,
                &mut answer,
            )
        };
        Ok((shape, done(answer)?.bytes as usize))
    }

    /// Draws lines of text, for each what `draw` draws, but with the font's programs run once for many of them. Glyphs
    /// are cached between lines, which then are up to twenty times as fast. The function `each` takes the pictures in
    /// order. A line that is refused ends the drawing.
    pub fn labels(
        &self,
        texts: &[&str],
        job: &Job,
        mut each: impl FnMut(Picture),
    ) -> Result<(), Error> {
        let (mut rows, mut drawn) = (vec![0; LINES_ROOM], 0);
        while drawn < texts.len() {
            let (answer, lines) = self.draw_lines(&texts[drawn..], job, &mut rows);
            for line in &lines[..answer.count as usize] {
                let at = line.at as usize;
                let end = at + (line.picture.row_bytes * u64::from(line.picture.height)) as usize;
                each(Picture {
                    shape: line.picture,
                    rows: rows[at..end].to_vec(),
                });
            }
            drawn += answer.count as usize;
            if answer.status == ROOM {
                rows.resize(rows.len().max(answer.bytes as usize), 0);
            } else if done(answer).is_err() {
                return Err(Error::of_line(answer, drawn));
            }
        }
        Ok(())
    }

    /// Draws as many of the first lines as a room holds, and of a call.
    fn draw_lines(&self, texts: &[&str], job: &Job, rows: &mut [u8]) -> (Answer, Vec<Line>) {
        let texts = &texts[..texts.len().min(4096)];
        let (text, ends) = joined(texts);
        let (mut lines, mut answer) = (vec![Line::default(); texts.len()], Answer::default());
        unsafe {
            c::tt_draw_lines(
                self.bytes.as_ptr(),
                self.bytes.len(),
                text.as_ptr(),
                text.len(),
                ends.as_ptr(),
                ends.len(),
                &job.of_font(self.face, &self.place),
                LINES_ROOM,
                rows.as_mut_ptr(),
                rows.len(),
                lines.as_mut_ptr(),
                lines.len(),
                &mut answer,
            )
        };
        (answer, lines)
    }

    /// Counts the bytes of the rows of all pictures that one call draws of some texts, without these rows.
    pub fn labels_room(&self, texts: &[&str], job: &Job) -> Result<u64, Error> {
        let (text, ends) = joined(texts);
        let mut answer = Answer::default();
        unsafe {
            c::tt_lines_room(
                self.bytes.as_ptr(),
                self.bytes.len(),
                text.as_ptr(),
                text.len(),
                ends.as_ptr(),
                ends.len(),
                &job.of_font(self.face, &self.place),
                LINES_ROOM,
                &mut answer,
            )
        };
        match done(answer) {
            Ok(answer) => Ok(answer.bytes),
            Err(_) => Err(Error::of_line(answer, answer.count as usize)),
        }
    }

    /// Measures a line of text.
    pub fn measure(&self, text: &str, job: &Job) -> Result<Measure, Error> {
        let (mut told, mut answer) = (c::Measure::default(), Answer::default());
        unsafe {
            c::tt_measure(
                self.bytes.as_ptr(),
                self.bytes.len(),
                text.as_ptr(),
                text.len(),
                &job.of_font(self.face, &self.place),
                &mut told,
                &mut answer,
            )
        };
        done(answer)?;
        Ok(told.into())
    }

    /// Returns the place of each character of a text in its picture.
    pub fn characters(&self, text: &str, job: &Job) -> Result<Vec<Character>, Error> {
        let (mut told, mut answer) = (vec![c::Character::default(); text.len()], Answer::default());
        unsafe {
            c::tt_characters(
                self.bytes.as_ptr(),
                self.bytes.len(),
                text.as_ptr(),
                text.len(),
                &job.of_font(self.face, &self.place),
                told.as_mut_ptr(),
                told.len(),
                &mut answer,
            )
        };
        told.truncate(done(answer)?.count as usize);
        Ok(told.into_iter().map(Character::from).collect())
    }

    /// Returns the glyph and the advance of each character of a text.
    pub fn map(&self, text: &str) -> Result<Vec<Glyph>, Error> {
        let mut job = Job::of_size(1);
        job.fit = Fit::Full;
        let job = job.of_font(self.face, &self.place);
        let (mut told, mut answer) = (vec![Glyph::default(); text.len()], Answer::default());
        unsafe {
            c::tt_map_job(
                self.bytes.as_ptr(),
                self.bytes.len(),
                text.as_ptr(),
                text.len(),
                &job,
                told.as_mut_ptr(),
                told.len(),
                &mut answer,
            )
        };
        told.truncate(done(answer)?.count as usize);
        Ok(told)
    }

    /// Tells the rows of the font's lines at a size, and its underline.
    pub fn strike(&self, job: &Job) -> Result<Strike, Error> {
        let (mut told, mut answer) = (c::Strike::default(), Answer::default());
        unsafe {
            c::tt_strike(
                self.bytes.as_ptr(),
                self.bytes.len(),
                &job.of_font(self.face, &self.place),
                &mut told,
                &mut answer,
            )
        };
        done(answer)?;
        Ok(told.into())
    }

    /// Lays out a line of text without its ink. The request's `grow` is not looked at.
    pub fn layout(&self, text: &str, job: &Job) -> Result<Layout, Error> {
        let (mut told, mut answer) = (Layout::default(), Answer::default());
        unsafe {
            c::tt_layout(
                self.bytes.as_ptr(),
                self.bytes.len(),
                text.as_ptr(),
                text.len(),
                &job.of_font(self.face, &self.place),
                &mut told,
                &mut answer,
            )
        };
        done(answer)?;
        Ok(told)
    }

    /// Returns the pen of each character of a text, as `layout` lays the text out.
    pub fn pens(&self, text: &str, job: &Job) -> Result<Vec<Pen>, Error> {
        let (mut told, mut answer) = (vec![Pen::default(); text.len()], Answer::default());
        unsafe {
            c::tt_pens(
                self.bytes.as_ptr(),
                self.bytes.len(),
                text.as_ptr(),
                text.len(),
                &job.of_font(self.face, &self.place),
                told.as_mut_ptr(),
                told.len(),
                &mut answer,
            )
        };
        told.truncate(done(answer)?.count as usize);
        Ok(told)
    }

    /// Makes the bitmaps of at most 4,096 glyphs by their numbers. Of the request `size` and `fit` alone are looked at.
    pub fn glyphs(&self, numbers: &[u32], job: &Job) -> Result<Bitmaps, Error> {
        let mut rows = vec![0; FIRST_ROOM];
        loop {
            match self.glyphs_into(numbers, job, &mut rows) {
                Ok((entries, bytes)) => {
                    rows.truncate(bytes);
                    return Ok(Bitmaps { entries, rows });
                }
                Err(error) => match error.wanted() {
                    Some(wanted) => rows = vec![0; wanted as usize],
                    None => return Err(error),
                },
            }
        }
    }

    /// Makes the bitmaps of glyphs in a room, and returns how many of its bytes the rows have. Where the room is too
    /// small, the error has the bytes that are wanted.
    pub fn glyphs_into(
        &self,
        numbers: &[u32],
        job: &Job,
        rows: &mut [u8],
    ) -> Result<(Vec<Bitmap>, usize), Error> {
        let (mut told, mut answer) = (vec![Bitmap::default(); numbers.len()], Answer::default());
        unsafe {
            c::tt_glyphs(
                self.bytes.as_ptr(),
                self.bytes.len(),
                numbers.as_ptr(),
                numbers.len(),
                &job.of_font(self.face, &self.place),
                rows.as_mut_ptr(),
                rows.len(),
                told.as_mut_ptr(),
                told.len(),
                &mut answer,
            )
        };
        Ok((told, done(answer)?.bytes as usize))
    }
}
