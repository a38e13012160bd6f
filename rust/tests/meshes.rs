//! A mesh that owns its work, beside the calls on lent lists.
use physica::{check_mesh, polyhedron, profile, write_sheet, Body, Mesh, Refusal};

const VERTS: [[f64; 3]; 4] = [[0.0, 0.0, 0.0], [1.0, 0.0, 0.0], [0.0, 1.0, 0.0], [0.0, 0.0, 1.0]];
const FACES: [[u32; 3]; 4] = [[0, 2, 1], [0, 1, 3], [0, 3, 2], [1, 2, 3]];
const STATIONS: [[f64; 3]; 3] = [[0.1, 0.2, 0.3], [2.0, 0.25, 0.25], [9.0, -3.0, 4.0]];
const MAGNETISATION: [f64; 3] = [1.0, 2.0, -2.0];
const AMBIENT: [f64; 3] = [2e-5, 0.0, 4.5e-5];

/// n corners about the z axis and two tips, at each of which n edges meet.
fn bipyramid(n: u32) -> (Vec<[f64; 3]>, Vec<[u32; 3]>) {
    let mut verts: Vec<[f64; 3]> = (0..n).map(|k| std::f64::consts::TAU * k as f64 / n as f64).map(|a| [a.cos(), a.sin(), 0.0]).collect();
    verts.extend([[0.0, 0.0, 1.0], [0.0, 0.0, -1.0]]);
    (verts, (0..n).flat_map(|k| [[k, (k + 1) % n, n], [(k + 1) % n, k, n + 1]]).collect())
}

#[test]
fn it_answers_as_the_calls_on_lent_lists_do() {
    let mut work = [0; 12];
    let mut mesh = Mesh::new(&VERTS, &FACES).unwrap();
    assert_eq!(Ok(mesh.volume()), check_mesh(&VERTS, &FACES, &mut work));
    assert_eq!((mesh.verts(), mesh.faces()), (&VERTS[..], &FACES[..]));
    for p in STATIONS {
        assert_eq!(mesh.field(p), polyhedron(p, &VERTS, &FACES, &mut work));
    }
    assert_eq!(mesh.fields(&STATIONS), profile(&STATIONS, &VERTS, &FACES, &mut work));
    let body = Body::Mesh { verts: &VERTS, faces: &FACES };
    assert_eq!(mesh.sheet(MAGNETISATION, AMBIENT, &STATIONS), write_sheet(body, MAGNETISATION, AMBIENT, &STATIONS));
}

#[test]
fn a_bad_mesh_is_refused_when_it_is_made() {
    assert_eq!(Mesh::new(&VERTS, &FACES[..3]).unwrap_err(), Refusal::Open { from: 1, to: 3 });
    assert_eq!(Mesh::new(&VERTS, &[[0, 1, 2], [0, 1, 4]]).unwrap_err(), Refusal::NoSuchVertex { face: 1 });
    assert_eq!(Mesh::new(&VERTS, &FACES.map(|[a, b, c]| [a, c, b])).unwrap_err(), Refusal::Inverted);
    assert_eq!(Mesh::new(&VERTS, &[]).unwrap_err(), Refusal::Inverted);
    assert_eq!(Mesh::new(&[], &[]).unwrap_err(), Refusal::Inverted);
    let mut far = VERTS;
    far[1][0] = 2e9;
    assert_eq!(Mesh::new(&far, &FACES).unwrap_err(), Refusal::OutOfLimits);
}

#[test]
fn a_refused_station_leaves_the_mesh_as_it_was() {
    let (verts, faces) = bipyramid(65);
    let mut mesh = Mesh::new(&verts, &faces).unwrap();
    let before = mesh.field(STATIONS[1]);
    assert!(before.is_ok());
    let tip = [0.0, 0.0, 1.0];
    assert_eq!(mesh.field(tip), Err(Refusal::TooManyEdges { station: 0 }));
    assert_eq!(mesh.field([f64::NAN, 0.0, 0.0]), Err(Refusal::OutOfLimits));
    let error = mesh.fields(&[STATIONS[1], tip]).unwrap_err();
    assert_eq!((error.refusal, error.before), (Refusal::TooManyEdges { station: 1 }, vec![before.unwrap()]));
    assert_eq!(mesh.sheet(MAGNETISATION, AMBIENT, &[STATIONS[1], tip]), Err(Refusal::TooManyEdges { station: 1 }));
    assert_eq!(mesh.sheet([0.0; 3], [0.0; 3], &STATIONS), Err(Refusal::NotFinite { station: 0 }));
    assert_eq!(mesh.field(STATIONS[1]), before);
}

#[test]
fn a_clone_answers_in_another_thread() {
    let mut mesh = Mesh::new(&VERTS, &FACES).unwrap();
    let mut other = mesh.clone();
    let there = std::thread::scope(|s| s.spawn(|| other.fields(&STATIONS)).join().unwrap());
    assert_eq!(there, mesh.fields(&STATIONS));
}
