//! The axes and the named instances of variable fonts.
use crate::c;

/// The most values of axes in a job of the library.
const MOST: usize = 16;

/// An axis of a variable font.
#[derive(Clone, Debug, PartialEq)]
#[non_exhaustive]
pub struct Axis {
    /// Its tag, as `*b"wght"`.
    pub tag: [u8; 4],
    /// Its least value.
    pub least: f64,
    /// Its value where nothing is asked for.
    pub default: f64,
    /// Its greatest value.
    pub greatest: f64,
    /// Its name, at most 64 characters of ASCII.
    pub name: String,
}

/// A named instance of a variable font.
#[derive(Clone, Debug, PartialEq)]
#[non_exhaustive]
pub struct Instance {
    /// Its number, from 0 on.
    pub number: u32,
    /// Its value on each axis, in the order of the axes.
    pub places: Vec<f64>,
    /// Its name, at most 64 characters of ASCII.
    pub name: String,
}

/// What the jobs of a font ask for, as the library has it.
#[derive(Clone, Copy, Debug, Default, PartialEq, Eq)]
pub(crate) struct Place {
    pub(crate) instance: u32,
    pub(crate) axes: u32,
    pub(crate) axis: [c::Axis; MOST],
}

impl Place {
    /// The same values at another named instance, of a number as a job has it.
    pub(crate) fn of_instance(self, instance: u32) -> Place {
        Place { instance, ..self }
    }

    /// The same named instance with other values. The library refuses more than it takes.
    pub(crate) fn of_values(self, values: &[([u8; 4], f64)]) -> Place {
        let mut axis = [c::Axis::default(); MOST];
        for (to, (tag, value)) in axis.iter_mut().zip(values) {
            *to = c::Axis {
                tag: u32::from_be_bytes(*tag),
                value: fixed(*value),
            };
        }
        Place {
            axes: values.len() as u32,
            axis,
            ..self
        }
    }
}

/// A value in 16.16, to the nearest, a half away from 0. What 32 bits cannot hold becomes the nearest that they can.
fn fixed(value: f64) -> i32 {
    (value * 65536.0).round() as i32
}

/// A value of 16.16.
fn value_of(fixed: i32) -> f64 {
    f64::from(fixed) / 65536.0
}

/// The text of a name with zeros at its end.
fn name_of(bytes: &[u8]) -> String {
    let end = bytes.iter().position(|it| *it == 0).unwrap_or(bytes.len());
    String::from_utf8_lossy(&bytes[..end]).into_owned()
}

impl From<&c::AxisRange> for Axis {
    fn from(it: &c::AxisRange) -> Axis {
        Axis {
            tag: it.tag.to_be_bytes(),
            least: value_of(it.least),
            default: value_of(it.default_value),
            greatest: value_of(it.greatest),
            name: name_of(&it.name),
        }
    }
}

impl Instance {
    /// An instance of a font with so many axes.
    pub(crate) fn of(it: &c::Instance, axes: usize) -> Instance {
        Instance {
            number: it.instance - 1,
            places: it.place.iter().take(axes).map(|it| value_of(*it)).collect(),
            name: name_of(&it.name),
        }
    }
}
