//! The shipped sheets of examples/sheets, and what the safe calls do with damaged bytes and too little room.
use physica::{check_mesh, check_sheet, polyhedron, sheet_length, sheet_row, sheet_rows, write_sheet, write_sheet_into, Body, Refusal, Row, Rows};
use std::path::PathBuf;

const VERTS: [[f64; 3]; 4] = [[0.0, 0.0, 0.0], [1.0, 0.0, 0.0], [0.0, 1.0, 0.0], [0.0, 0.0, 1.0]];
const FACES: [[u32; 3]; 4] = [[0, 2, 1], [0, 1, 3], [0, 3, 2], [1, 2, 3]];
const STATIONS: [[f64; 3]; 2] = [[2.0, 0.25, 0.25], [9.0, -3.0, 4.0]];
const MAGNETISATION: [f64; 3] = [1.0, 2.0, -2.0];
const AMBIENT: [f64; 3] = [2e-5, 0.0, 4.5e-5];

fn tetrahedron() -> Body<'static> {
    Body::Mesh { verts: &VERTS, faces: &FACES }
}

fn folder() -> PathBuf {
    PathBuf::from(env!("CARGO_MANIFEST_DIR")).join("../examples/sheets")
}

/// The line that `recheck` prints: a refusal's text up to its sentence.
fn line(sheet: &[u8]) -> String {
    match check_sheet(sheet) {
        Ok(a) => format!("accepted {} {}", a.kind, a.stations),
        Err(r) => r.to_string().split(':').next().unwrap().to_string(),
    }
}

#[test]
fn shipped_sheets_have_their_lines() {
    let expected = std::fs::read_to_string(folder().join("expected")).unwrap();
    assert_eq!(expected.lines().count(), 6);
    for row in expected.lines() {
        let (name, verdict) = row.split_once(' ').unwrap();
        let sheet = std::fs::read(folder().join(name)).unwrap();
        assert_eq!(line(&sheet), verdict, "{name}");
    }
}

#[test]
fn the_writer_writes_the_shipped_mesh_and_prism() {
    let prism = Body::Prism { min: [-1.0, -2.0, -3.0], max: [1.0, 2.0, 0.0] };
    for (body, name) in [(tetrahedron(), "mesh.sheet"), (prism, "prism.sheet")] {
        let sheet = write_sheet(body, MAGNETISATION, AMBIENT, &STATIONS).unwrap();
        assert!(sheet == std::fs::read(folder().join(name)).unwrap(), "{name}");
    }
}

#[test]
fn rows_are_those_of_the_single_calls() {
    let sheet = write_sheet(tetrahedron(), MAGNETISATION, AMBIENT, &STATIONS).unwrap();
    let mut work = [0; 12];
    let rows: Vec<Row> = Rows::of(&sheet).collect();
    assert_eq!(rows.len(), 2);
    for (i, p) in STATIONS.iter().enumerate() {
        let f = polyhedron(*p, &VERTS, &FACES, &mut work).unwrap();
        let anomaly = physica::body(f.hessian, MAGNETISATION).unwrap();
        let total = physica::total_field(AMBIENT, anomaly).unwrap();
        assert_eq!((rows[i].potential, rows[i].gradient, rows[i].anomaly, rows[i].total), (f.potential, f.gradient, anomaly, total));
        assert_eq!(sheet_row(&sheet, i), Some(rows[i]));
        assert_eq!(sheet_rows(&sheet)[64 * i..64 * i + 8], f.potential.to_le_bytes());
    }
    assert_eq!(sheet_row(&sheet, 2), None);
    assert_eq!(sheet_rows(&sheet[1..]), &[] as &[u8]);
}

#[test]
fn too_little_room_is_refused_and_nothing_is_written() {
    let n = sheet_length(4, 4, 2);
    let (mut work, mut out) = ([7; 12], vec![9; n + 5]);
    assert_eq!(write_sheet_into(tetrahedron(), MAGNETISATION, AMBIENT, &STATIONS, &mut work[..11], &mut out), Err(Refusal::TooShort));
    assert_eq!(write_sheet_into(tetrahedron(), MAGNETISATION, AMBIENT, &STATIONS, &mut work, &mut out[..n - 1]), Err(Refusal::TooShort));
    assert!(work == [7; 12] && out == vec![9; n + 5]);
    assert_eq!(write_sheet_into(tetrahedron(), MAGNETISATION, AMBIENT, &STATIONS, &mut work, &mut out), Ok(n));
    assert_eq!(out[n..], [9; 5]);
    // a station at a vertex: its row is infinite, and the sheet's bytes are zeroed
    assert_eq!(write_sheet_into(tetrahedron(), MAGNETISATION, AMBIENT, &[STATIONS[0], VERTS[1]], &mut work, &mut out), Err(Refusal::NotFinite { station: 1 }));
    assert!(out[..n].iter().all(|&b| b == 0) && out[n..] == [9; 5]);
}

#[test]
fn lengths_are_those_of_the_sheets() {
    let prism = Body::Prism { min: [-1.0, -2.0, -3.0], max: [1.0, 2.0, 0.0] };
    for (body, name) in [(tetrahedron(), "mesh.sheet"), (prism, "prism.sheet")] {
        assert_eq!(body.sheet_length(2), Ok(std::fs::read(folder().join(name)).unwrap().len()), "{name}");
    }
    assert_eq!(tetrahedron().sheet_length(2), Ok(sheet_length(4, 4, 2)));
    assert_eq!(prism.sheet_length(65_536), Ok(sheet_length(2, 0, 65_536)));
}

#[test]
fn a_length_of_any_counts_is_given_or_refused() {
    for stations in [65_537, usize::MAX / 88, usize::MAX / 88 + 1, usize::MAX] {
        assert_eq!(tetrahedron().sheet_length(stations), Err(Refusal::TooMany));
    }
    let (verts, faces) = (vec![[0.5; 3]; 20_001], vec![[0, 1, 2]; 32_769]);
    assert_eq!(Body::Mesh { verts: &verts, faces: &[] }.sheet_length(0), Err(Refusal::TooMany));
    assert_eq!(Body::Mesh { verts: &[], faces: &faces }.sheet_length(0), Err(Refusal::TooMany));
    assert_eq!(Body::Mesh { verts: &verts[1..], faces: &faces[1..] }.sheet_length(65_536), Ok(sheet_length(20_000, 32_768, 65_536)));
    assert_eq!(sheet_length(usize::MAX, 0, 0), usize::MAX);
    assert_eq!(sheet_length(usize::MAX / 24, usize::MAX / 36, 1), usize::MAX);
}

#[test]
fn refusals_carry_their_edge_or_face() {
    let mut work = [0; 12];
    assert_eq!(check_mesh(&VERTS, &FACES[..3], &mut work), Err(Refusal::Open { from: 1, to: 3 }));
    let turned = [FACES[0], FACES[1], FACES[2], [1, 3, 2]];
    assert_eq!(polyhedron([4.0, 0.25, 0.25], &VERTS, &turned, &mut work), Err(Refusal::Flipped { from: 1, to: 3 }));
    assert_eq!(check_mesh(&VERTS, &[[0, 1, 2], [0, 1, 4]], &mut work), Err(Refusal::NoSuchVertex { face: 1 }));
}
