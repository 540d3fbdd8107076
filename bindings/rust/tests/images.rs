//! Images of coefficient tables, whole and in pieces: the examples and corners of docs/RULES.md, sections 15 and 16.

use gudrenoss::Repetition::{Allowed, Forbidden};
use gudrenoss::{Image, MonoIndex, Pieces, Refusal, Repetition, Table};

/// The good image with these tables, each a family, a degree and an alphabet; its entries are 1000, 1001 and so on.
fn image(tables: &[(Repetition, u8, u8)]) -> Vec<u8> {
    let mut contents = (tables.len() as u32).to_le_bytes().to_vec();
    let (mut bodies, mut entry) = (Vec::new(), 1000u64);
    for &(family, degree, alphabet) in tables {
        let entries = family.count(alphabet.into(), degree.into()).unwrap();
        let offset = 4 + 12 * tables.len() + bodies.len();
        contents.extend([(family == Allowed) as u8, degree, alphabet, 0]);
        contents.extend((offset as u32).to_le_bytes());
        contents.extend((entries as u32).to_le_bytes());
        for _ in 0..entries {
            bodies.extend(entry.to_le_bytes());
            entry += 1;
        }
    }
    [contents, bodies].concat()
}

fn surface() -> Vec<u8> {
    image(&[(Allowed, 0, 2), (Allowed, 2, 3), (Forbidden, 2, 4)])
}

fn bad(at: usize) -> Refusal {
    Refusal::BadImage { at: at as u64 }
}

#[test]
fn tables() {
    let bytes = surface();
    let good = Image::new(&bytes).unwrap();
    assert_eq!((good.len(), good.is_empty(), good.bytes()), (3, false, &bytes[..]));
    let found: Vec<(Repetition, u64, u64, u64, u64)> = good
        .tables()
        .map(|t: Table| (t.repetition, t.degree, t.nsymbols, t.offset, t.entries))
        .collect();
    assert_eq!(
        found,
        [(Allowed, 0, 2, 40, 1), (Allowed, 2, 3, 48, 6), (Forbidden, 2, 4, 96, 6)]
    );
    assert_eq!(good.tables().len(), 3);
    assert_eq!(good.table(Allowed, 2).unwrap().offset, 48);
    for (family, degree) in [(Allowed, 1), (Forbidden, 0), (Allowed, 258), (Allowed, u64::MAX)] {
        assert_eq!(good.table(family, degree), Err(Refusal::NoSuchTable));
    }
}

#[test]
fn terms() {
    let bytes = surface();
    let good = Image::new(&bytes).unwrap();
    for (family, n, k, first) in [(Allowed, 2, 0, 1000), (Allowed, 3, 2, 1001), (Forbidden, 4, 2, 1007)] {
        let table = good.table(family, k).unwrap();
        for (rank, term) in MonoIndex::all(family, n, k).unwrap().enumerate() {
            assert_eq!(good.lookup(&term), Ok(first + rank as u64));
            assert_eq!(table.lookup(&good, &term), Ok(first + rank as u64));
        }
    }
    // The alphabet of the one who asks does not matter, and a symbol that the table does not have is told.
    let term = |word: &[u64]| MonoIndex::new(Allowed, 60, word).unwrap();
    assert_eq!(good.lookup(&term(&[0, 2])), Ok(1004));
    assert_eq!(good.lookup(&term(&[0, 3])), Err(Refusal::NoSuchRank));
    assert_eq!(good.lookup(&term(&[0])), Err(Refusal::NoSuchTable));
    let made_up = Table {
        repetition: Allowed,
        degree: 2,
        nsymbols: 3,
        offset: 96,
        entries: 7,
    };
    assert_eq!(made_up.lookup(&good, &term(&[0, 2])), Err(Refusal::Outside));
    let made_up = Table {
        offset: u64::MAX,
        entries: u64::MAX,
        ..made_up
    };
    assert_eq!(made_up.lookup(&good, &term(&[0, 2])), Err(Refusal::Outside));
}

#[test]
fn bad_images() {
    let bytes = surface();
    for len in 0..bytes.len() {
        assert_eq!(Image::new(&bytes[..len]), Err(bad(len)));
    }
    assert_eq!(Image::new(&[&bytes[..], &[0]].concat()), Err(bad(bytes.len())));
    for (at, value, wrong) in [
        (0, 65, 0),
        (4, 2, 4),
        (5, 65, 5),
        (6, 65, 6),
        (7, 1, 7),
        (8, 39, 8),
        (12, 2, 12),
        (17, 0, 17),
        (18, 64, 18),
    ] {
        let mut bytes = bytes.clone();
        bytes[at] = value;
        assert_eq!(Image::new(&bytes), Err(bad(wrong)));
    }
    assert_eq!(Image::new(&[255, 255, 255]), Err(bad(3)));
    assert_eq!(Image::new(&[255, 255, 255, 0]), Err(bad(0)));
}

#[test]
fn writing() {
    let bytes = surface();
    for split in 0..=bytes.len() {
        for room in [0, bytes.len() - 1, bytes.len(), bytes.len() + 3] {
            let mut places = vec![0x5a; room];
            let (contents, bodies) = bytes.split_at(split);
            let written = Image::written(contents, bodies, &mut places).map(|image| image.bytes().to_vec());
            if room < bytes.len() {
                assert_eq!(written, Err(Refusal::Shape));
                assert!(places.iter().all(|&b| b == 0x5a));
            } else {
                assert_eq!(written.as_ref(), Ok(&bytes));
                assert!(places[bytes.len()..].iter().all(|&b| b == 0x5a));
            }
        }
    }
    assert_eq!(Image::written(&bytes[..40], &bytes[40..50], &mut []), Err(bad(50)));
}

#[test]
fn pieces() {
    let bytes = surface();
    for i in 0..=bytes.len() {
        for j in i..=bytes.len() {
            let mut p = Pieces::new();
            for piece in [&bytes[..i], &bytes[i..j], &bytes[j..], &[]] {
                assert_eq!(p.feed(piece), Ok(()));
                assert_eq!(p.verdict(), Ok(None));
            }
            assert_eq!((p.end(), p.verdict()), (Ok(3), Ok(Some(3))));
            assert_eq!((p.feed(&bytes), p.end()), (Ok(()), Ok(3)));
        }
        let mut short = Pieces::default();
        bytes[..i].chunks(7).for_each(|piece| assert_eq!(short.feed(piece), Ok(())));
        let verdict = if i < bytes.len() { Err(bad(i)) } else { Ok(3) };
        assert_eq!((short.end(), short.end()), (verdict, verdict));
    }
    let mut p = Pieces::new();
    assert_eq!(p.feed(&bytes), Ok(()));
    assert_eq!(p.feed(&[0]), Err(bad(bytes.len())));
    assert_eq!(
        (p.feed(&[]), p.end(), p.verdict()),
        (Err(bad(bytes.len())), Err(bad(bytes.len())), Err(bad(bytes.len())))
    );
    assert_eq!(format!("{:?}", Pieces::new()), "Pieces { seen: 0, state: 0, at: 0, .. }");
}
