//! The mass of one frame: the examples and corners of docs/RULES.md, section 21.

use gudrenoss::{FrameRefusal, Image, Reading, Refusal, Surface, join};

/// The image of a surface: its tables by degree, in the order in which they are given.
fn surface(tables: &[(u8, &[f64])]) -> Vec<u8> {
    let mut contents = (tables.len() as u32).to_le_bytes().to_vec();
    let mut bodies = Vec::new();
    for &(degree, entries) in tables {
        contents.extend([1, degree, 2, 0]);
        contents.extend((4 + 12 * tables.len() as u32 + bodies.len() as u32).to_le_bytes());
        contents.extend((entries.len() as u32).to_le_bytes());
        bodies.extend(entries.iter().flat_map(|c| c.to_le_bytes()));
    }
    [contents, bodies].concat()
}

fn mass(bytes: &[u8], frame: u64, p: f64, t: f64) -> Result<u64, FrameRefusal> {
    let mass = Surface::new(bytes).mass(Reading::new(frame, p), Reading::new(frame, t))?;
    Ok(mass.to_bits())
}

fn refused(refusal: Refusal, frame: u64) -> Result<u64, FrameRefusal> {
    Err(FrameRefusal { refusal, frame })
}

#[test]
fn the_sequence() {
    type Told<'a> = (&'a [(u8, &'a [f64])], f64, f64, u64);
    let surfaces: [Told; 5] = [
        (&[(0, &[1.0]), (1, &[0.1, 0.0])], 1.3, 0.1, 0x3ff2147ae147ae14),
        (&[(1, &[0.2, 0.3]), (0, &[0.1])], 0.1, 0.7, 0x3fd51eb851eb851f),
        (&[(2, &[0.1, 0.0, 0.0])], 1.0 / 3.0, 0.1, 0x3f86c16c16c16c17),
        (&[(3, &[0.0, 0.1, 0.2, 0.0])], 0.1, 1.3, 0x3fa1f8a0902de00e),
        (&[(4, &[0.0, 0.1, 0.2, 0.3, 0.0])], 0.1, 0.7, 0x3f87396d0917d6b6),
    ];
    for (tables, p, t, bits) in surfaces {
        let bytes = surface(tables);
        assert_eq!(mass(&bytes, u64::MAX, p, t), Ok(bits));
        let image = Image::new(&bytes).unwrap();
        let again = Surface::from(image).mass(Reading::new(0, p), Reading::new(0, t)).unwrap();
        assert_eq!(again.to_bits(), bits);
    }
}

#[test]
fn refusals() {
    let constant = surface(&[(0, &[1.0])]);
    assert_eq!(mass(&constant, 4, 1e200, 1e200), Ok(1.0f64.to_bits()));
    assert_eq!(mass(&surface(&[(0, &[-0.0])]), 4, -0.0, 1.0), Ok(0));
    assert_eq!(mass(&surface(&[(0, &[5e-324])]), 4, 1.0, 1.0), Ok(1));
    for (p, t) in [(f64::NAN, 1.0), (1.0, f64::INFINITY), (f64::NEG_INFINITY, 1.0)] {
        assert_eq!(mass(&constant, 4, p, t), refused(Refusal::NotFinite, 4));
    }
    assert_eq!(
        mass(&surface(&[(1, &[f64::INFINITY, 0.0])]), 4, 0.0, 1.0),
        refused(Refusal::NotFinite, 4)
    );
    assert_eq!(
        mass(&surface(&[(2, &[0.0, 0.0, 0.0])]), 4, 1e200, 1.0),
        refused(Refusal::NotFinite, 4)
    );
    assert_eq!(
        mass(&constant[..23], 4, f64::NAN, 1.0),
        refused(Refusal::BadImage { at: 23 }, 4)
    );
    let mut three = constant.clone();
    three[6] = 3;
    assert_eq!(mass(&three, 4, f64::NAN, 1.0), refused(Refusal::Outside, 4));
    let two = Surface::new(&[]).mass(Reading::new(7, f64::NAN), Reading::new(6, 1.0));
    assert_eq!(
        two,
        Err(FrameRefusal {
            refusal: Refusal::Frame,
            frame: 7
        })
    );
    assert_eq!(
        two.unwrap_err().to_string(),
        "frame 7: refused 13: the readings are of different frames"
    );
}

#[test]
fn samples() {
    let s = join(Reading::new(9, 2.5), Reading::new(9, f64::INFINITY)).unwrap();
    assert_eq!((s.frame, s.pressure, s.temperature), (9, 2.5, f64::INFINITY));
    assert!(
        join(Reading::new(0, f64::NAN), Reading::new(0, 1.0))
            .unwrap()
            .pressure
            .is_nan()
    );
    assert_eq!(
        join(Reading::new(9, 2.5), Reading::new(8, 1.0)),
        Err(FrameRefusal {
            refusal: Refusal::Frame,
            frame: 9
        })
    );
}
