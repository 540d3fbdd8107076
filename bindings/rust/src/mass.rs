use crate::sys::{self, FrameStatus};
use crate::{Image, Refusal};
use core::fmt;

/// A reading with the number of the frame in which it was taken. Both may be any numbers; the value may be infinite or no number.
#[derive(Debug, Clone, Copy, PartialEq)]
pub struct Reading {
    /// The frame.
    pub frame: u64,
    /// What was read.
    pub value: f64,
}

/// A pressure and a temperature of one frame.
#[derive(Debug, Clone, Copy, PartialEq)]
pub struct Sample {
    /// The frame of both.
    pub frame: u64,
    /// The pressure.
    pub pressure: f64,
    /// The temperature.
    pub temperature: f64,
}

/// A refusal that names a frame: the one of the pressure.
#[derive(Debug, Clone, Copy, PartialEq, Eq, Hash)]
pub struct FrameRefusal {
    /// Why there is no answer.
    pub refusal: Refusal,
    /// The frame that has none.
    pub frame: u64,
}

impl FrameRefusal {
    /// What the library gave back: number 0 is an answer.
    fn judge(back: FrameStatus) -> Result<(), FrameRefusal> {
        match back {
            FrameStatus {
                number: 0,
                at: 0,
                frame: 0,
            } => Ok(()),
            FrameStatus { number, at, frame } => {
                let refusal = Refusal::from_parts(number, at).expect("the library gives no other number and place");
                Err(FrameRefusal { refusal, frame })
            }
        }
    }
}

impl fmt::Display for FrameRefusal {
    fn fmt(&self, f: &mut fmt::Formatter<'_>) -> fmt::Result {
        write!(f, "frame {}: {}", self.frame, self.refusal)
    }
}

impl core::error::Error for FrameRefusal {}

impl Reading {
    /// The reading of a frame.
    #[must_use]
    pub fn new(frame: u64, value: f64) -> Reading {
        Reading { frame, value }
    }
}

/// One pressure and one temperature as a sample of one frame.
///
/// # Errors
///
/// [`Frame`](Refusal::Frame), if the two are of different frames.
pub fn join(pressure: Reading, temperature: Reading) -> Result<Sample, FrameRefusal> {
    let mut s = Sample {
        frame: 0,
        pressure: 0.0,
        temperature: 0.0,
    };
    FrameRefusal::judge(sys::gudrenoss_join(
        pressure.frame,
        pressure.value,
        temperature.frame,
        temperature.value,
        &mut s.frame,
        &mut s.pressure,
        &mut s.temperature,
    ))?;
    Ok(s)
}

/// The bytes of a surface: an image whose tables are all of multisets over two quantities, 0 the pressure and 1 the temperature, with the bits
/// of an `f64` as entries. They are judged with every mass, so any bytes may be given.
///
/// ```
/// use gudrenoss::{Reading, Refusal, Surface};
///
/// // 2.0 + 0.5 p - 0.25 t
/// let mut bytes = vec![2, 0, 0, 0, 1, 0, 2, 0, 28, 0, 0, 0, 1, 0, 0, 0, 1, 1, 2, 0, 36, 0, 0, 0, 2, 0, 0, 0];
/// bytes.extend([2.0f64, 0.5, -0.25].iter().flat_map(|c| c.to_le_bytes()));
/// let surface = Surface::new(&bytes);
/// assert_eq!(surface.mass(Reading::new(17, 8.0), Reading::new(17, 2.0)), Ok(5.5));
/// let refused = surface.mass(Reading::new(17, 8.0), Reading::new(16, 2.0)).unwrap_err();
/// assert_eq!((refused.refusal, refused.frame), (Refusal::Frame, 17));
/// ```
#[derive(Debug, Clone, Copy, PartialEq, Eq)]
#[must_use]
pub struct Surface<'a> {
    bytes: &'a [u8],
}

impl<'a> Surface<'a> {
    /// The surface of these bytes.
    pub fn new(bytes: &'a [u8]) -> Self {
        Surface { bytes }
    }

    /// The mass of one frame: a finite number, never -0.0, in the unit of the coefficients. Its bits are those of the sequence of rounded
    /// operations of `docs/RULES.md`, section 21.
    ///
    /// # Errors
    ///
    /// In this order: [`Frame`](Refusal::Frame); [`BadImage`](Refusal::BadImage); [`Outside`](Refusal::Outside) for a table of another
    /// family or alphabet; [`NotFinite`](Refusal::NotFinite).
    pub fn mass(&self, pressure: Reading, temperature: Reading) -> Result<f64, FrameRefusal> {
        let mut mass = 0.0;
        FrameRefusal::judge(sys::gudrenoss_mass(
            self.bytes,
            pressure.frame,
            pressure.value,
            temperature.frame,
            temperature.value,
            &mut mass,
        ))?;
        Ok(mass)
    }
}

impl<'a> From<Image<'a>> for Surface<'a> {
    fn from(image: Image<'a>) -> Self {
        Surface::new(image.bytes())
    }
}
