//! Profiles beside the single call, and what they give when a station or the whole call is refused.
use physica::{polyhedron, profile, profile_into, Newtonian, ProfileError, Refusal};

const VERTS: [[f64; 3]; 4] = [[0.0, 0.0, 0.0], [1.0, 0.0, 0.0], [0.0, 1.0, 0.0], [0.0, 0.0, 1.0]];
const FACES: [[u32; 3]; 4] = [[0, 2, 1], [0, 1, 3], [0, 3, 2], [1, 2, 3]];

/// Inside, near and far.
fn stations() -> Vec<[f64; 3]> {
    (0..11).map(|k| [0.1 + 0.6 * k as f64, 0.2, 0.3]).collect()
}

/// n corners about the z axis and two tips, at each of which n edges meet.
fn bipyramid(n: u32) -> (Vec<[f64; 3]>, Vec<[u32; 3]>) {
    let mut verts: Vec<[f64; 3]> = (0..n).map(|k| std::f64::consts::TAU * k as f64 / n as f64).map(|a| [a.cos(), a.sin(), 0.0]).collect();
    verts.extend([[0.0, 0.0, 1.0], [0.0, 0.0, -1.0]]);
    (verts, (0..n).flat_map(|k| [[k, (k + 1) % n, n], [(k + 1) % n, k, n + 1]]).collect())
}

fn refused(refusal: Refusal) -> Result<Vec<Newtonian>, ProfileError> {
    Err(ProfileError { refusal, before: vec![] })
}

#[test]
fn records_are_those_of_the_single_call() {
    let (mut work, mut single) = ([7; 14], [7; 14]);
    let ps = stations();
    let fields = profile(&ps, &VERTS, &FACES, &mut work).unwrap();
    assert_eq!(fields.len(), ps.len());
    for (p, field) in ps.iter().zip(&fields) {
        assert_eq!(polyhedron(*p, &VERTS, &FACES, &mut single), Ok(*field));
        assert_eq!(profile(&[*p], &VERTS, &FACES, &mut work), Ok(vec![*field]));
        assert_eq!(work, single);
    }
}

#[test]
fn no_stations_are_no_refusal() {
    let mut work = [7; 13];
    assert_eq!(profile(&[], &VERTS, &FACES, &mut work), Ok(vec![]));
    assert_eq!(work, [3, 0, 6, 2, 9, 4, 8, 1, 10, 5, 11, 7, 7]);
    assert_eq!(profile(&[], &VERTS, &FACES[..3], &mut work), refused(Refusal::Open { from: 1, to: 3 }));
    assert_eq!(profile(&[], &VERTS, &FACES, &mut work[..11]), refused(Refusal::TooShort));
    assert_eq!(profile(&[], &VERTS, &[], &mut []), refused(Refusal::Inverted));
}

#[test]
fn a_refused_station_comes_with_the_records_before_it() {
    let (verts, faces) = bipyramid(65);
    let mut work = vec![0; 3 * faces.len()];
    for i in [0, 1, 7, 8, 10] {
        let mut ps = stations();
        ps[i] = [0.0, 0.0, 1.0];
        let error = profile(&ps, &verts, &faces, &mut work).unwrap_err();
        assert_eq!(error.refusal, Refusal::TooManyEdges { station: i as u32 });
        assert_eq!(error.to_string(), error.refusal.to_string());
        assert_eq!(error.before.len(), i);
        for (p, field) in ps.iter().zip(&error.before) {
            assert_eq!(polyhedron(*p, &verts, &faces, &mut work), Ok(*field));
        }
        // lent numbers of the refused station and of later ones stay
        let mut fields = vec![9.0; 13 * ps.len() + 2];
        assert_eq!(profile_into(&ps, &verts, &faces, &mut work, &mut fields), Err(error.refusal));
        assert!(fields[..13 * i].iter().all(|&x| x != 9.0) && fields[13 * i..].iter().all(|&x| x == 9.0));
        // 3 of a later station comes first
        ps[10] = [2e9, 0.0, 0.0];
        assert_eq!(profile(&ps, &verts, &faces, &mut work), refused(Refusal::OutOfLimits));
    }
}

#[test]
fn too_little_room_is_refused_and_nothing_is_written() {
    let ps = stations();
    let (mut work, mut fields) = ([7; 12], vec![9.0; 13 * 11]);
    assert_eq!(profile(&ps, &VERTS, &FACES, &mut work[..11]), refused(Refusal::TooShort));
    assert_eq!(profile_into(&ps, &VERTS, &FACES, &mut work, &mut fields[..13 * 11 - 1]), Err(Refusal::TooShort));
    assert!(work == [7; 12] && fields == vec![9.0; 13 * 11]);
}

#[test]
fn counts_over_their_limits_are_refused() {
    let mut work = vec![0; 3 * 32_769];
    let one = [[2.0, 0.25, 0.25]];
    assert_eq!(profile(&vec![one[0]; 65_537], &VERTS, &FACES, &mut work), refused(Refusal::TooMany));
    assert_eq!(profile(&one, &vec![[0.5; 3]; 20_001], &FACES, &mut work), refused(Refusal::TooMany));
    assert_eq!(profile(&one, &VERTS, &vec![[0, 1, 2]; 32_769], &mut work), refused(Refusal::TooMany));
}
