//! The parts of a sheet: stations, rows and trailer, of good sheets and of others.
use physica::{ffi, sheet_station, sheet_trailer, write_sheet, Body, Refusal, Rows, Sheet};

const VERTS: [[f64; 3]; 4] = [[0.0, 0.0, 0.0], [1.0, 0.0, 0.0], [0.0, 1.0, 0.0], [0.0, 0.0, 1.0]];
const FACES: [[u32; 3]; 4] = [[0, 2, 1], [0, 1, 3], [0, 3, 2], [1, 2, 3]];
const STATIONS: [[f64; 3]; 3] = [[0.1, 0.2, 0.3], [2.0, 0.25, 0.25], [9.0, -3.0, 4.0]];
const MAGNETISATION: [f64; 3] = [1.0, 2.0, -2.0];
const AMBIENT: [f64; 3] = [2e-5, 0.0, 4.5e-5];

fn tetrahedron() -> Vec<u8> {
    write_sheet(Body::Mesh { verts: &VERTS, faces: &FACES }, MAGNETISATION, AMBIENT, &STATIONS).unwrap()
}

/// A sheet of vertices alone, all zeros, whose length fits its counts.
fn bare(kind: u32, vertices: u32) -> Vec<u8> {
    let before = 24 * vertices as usize;
    let mut bytes = vec![0; before + 80];
    bytes[before..before + 4].copy_from_slice(&kind.to_le_bytes());
    bytes[before + 4..before + 8].copy_from_slice(&vertices.to_le_bytes());
    bytes[before + 72..].copy_from_slice(&(before as u64).to_le_bytes());
    bytes
}

#[test]
fn the_trailer_is_what_the_sheet_was_made_of() {
    let bytes = tetrahedron();
    let t = Sheet::open(&bytes).unwrap().trailer();
    assert_eq!((t.kind, t.vertices, t.faces, t.stations), (1, 4, 4, 3));
    assert_eq!((t.magnetisation, t.ambient, t.volume), (MAGNETISATION, AMBIENT, 1.0 / 6.0));
    let bytes = write_sheet(Body::Prism { min: [-1.0, -2.0, -3.0], max: [1.0, 2.0, 0.0] }, AMBIENT, MAGNETISATION, &[]).unwrap();
    let t = sheet_trailer(&bytes).unwrap();
    assert_eq!((t.kind, t.vertices, t.faces, t.stations), (2, 2, 0, 0));
    assert_eq!((t.magnetisation, t.ambient, t.volume), (AMBIENT, MAGNETISATION, 24.0));
}

#[test]
fn stations_and_rows_come_in_order_and_counted() {
    let bytes = tetrahedron();
    let sheet = Sheet::open(&bytes).unwrap();
    assert_eq!(sheet.bytes(), bytes);
    assert!(sheet.stations().eq(STATIONS));
    assert!(sheet.rows().eq(Rows::of(&bytes)));
    let mut points = sheet.points();
    for (i, p) in STATIONS.into_iter().enumerate() {
        assert_eq!((points.len(), sheet_station(&bytes, i)), (3 - i, Some(p)));
        assert_eq!(points.next(), Some((p, physica::sheet_row(&bytes, i).unwrap())));
    }
    assert_eq!((points.len(), points.next()), (0, None));
    assert_eq!((sheet.stations().len(), sheet.rows().len(), Rows::of(&bytes).len()), (3, 3, 3));
    assert_eq!((sheet_station(&bytes, 3), sheet_station(&bytes, usize::MAX)), (None, None));
}

#[test]
fn a_sheet_that_the_check_refuses_can_be_read() {
    let mut bytes = tetrahedron();
    let row = bytes.len() - 80 - 64;
    bytes[row..row + 8].copy_from_slice(&5.5f64.to_le_bytes());
    let sheet = Sheet::open(&bytes).unwrap();
    assert_eq!(sheet.check(), Err(Refusal::WrongRow { station: 2 }));
    assert_eq!(sheet.rows().last().unwrap().potential, 5.5);
    bytes[row..row + 8].copy_from_slice(&tetrahedron()[row..row + 8]);
    let found = Sheet::open(&bytes).unwrap().check().unwrap();
    assert_eq!((found.kind, found.stations), (1, 3));
}

#[test]
fn what_cannot_be_opened_has_no_parts() {
    let bytes = tetrahedron();
    let cases = [
        (&bytes[1..], Refusal::WrongLength),
        (&[], Refusal::WrongLength),
        (&bare(9, 2), Refusal::Malformed),
        (&bare(2, 3), Refusal::Malformed),
        (&bare(1, 20_001), Refusal::TooMany),
    ];
    for (bytes, refusal) in cases {
        assert_eq!(Sheet::open(bytes).unwrap_err(), refusal);
        assert_eq!((sheet_station(bytes, 0), Rows::of(bytes).len(), Rows::of(bytes).next()), (None, 0, None));
    }
    assert_eq!(Sheet::open(&bare(1, 20_000)).unwrap().trailer().vertices, 20_000);
}

#[test]
fn lent_numbers_stay_where_a_sheet_cannot_be_opened() {
    let bytes = &tetrahedron()[1..];
    let (mut counts, mut numbers, mut station) = ([9; 4], [9.0; 7], [9.0; 3]);
    // SAFETY: the sheet comes with its length, and each buffer is as long as its type says.
    let answers = unsafe {
        (
            ffi::physica_sheet_trailer(bytes.as_ptr(), bytes.len(), &mut counts, &mut numbers),
            ffi::physica_sheet_station(bytes.as_ptr(), bytes.len(), 0, &mut station),
        )
    };
    assert_eq!(answers, (16, 0));
    assert_eq!((counts, numbers, station), ([9; 4], [9.0; 7], [9.0; 3]));
}

#[test]
fn a_length_wants_a_known_kind_and_its_counts() {
    for (kind, vertices, faces, length) in [(1, 2, 0, 128), (2, 2, 0, 128), (2, 3, 0, 0), (2, 2, 1, 0), (0, 2, 0, 0), (9, 2, 0, 0), (u32::MAX, 2, 0, 0)] {
        // SAFETY: it takes numbers alone.
        assert_eq!(unsafe { ffi::physica_sheet_length(kind, vertices, faces, 0) }, length, "{kind} {vertices} {faces}");
    }
}
