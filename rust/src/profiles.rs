use crate::{answer_with, ffi, Newtonian, Refusal, Vector};
use std::fmt;

/// The numbers of a field.
const FIELD_NUMBERS: usize = 13;

/// Why a profile has no record for every station.
#[derive(Clone, Debug, PartialEq)]
pub struct ProfileError {
    pub refusal: Refusal,
    /// The records of the stations before the one that 11 names; none after any other refusal.
    pub before: Vec<Newtonian>,
}

impl fmt::Display for ProfileError {
    fn fmt(&self, f: &mut fmt::Formatter<'_>) -> fmt::Result {
        self.refusal.fmt(f)
    }
}

impl std::error::Error for ProfileError {
    fn source(&self) -> Option<&(dyn std::error::Error + 'static)> {
        Some(&self.refusal)
    }
}

/// The fields of a mesh at each of the stations, as [`crate::polyhedron`] gives them; the mesh is checked once. `work` is as for [`crate::check_mesh`].
/// Refused by 2, 12, 3, 4, 5, 6, 7, 8, then station by station 11.
///
/// ```
/// let verts = [[0.0, 0.0, 0.0], [1.0, 0.0, 0.0], [0.0, 1.0, 0.0], [0.0, 0.0, 1.0]];
/// let faces = [[0, 2, 1], [0, 1, 3], [0, 3, 2], [1, 2, 3]];
/// let mut work = [0; 12];
/// let stations = [[4.0, 0.25, 0.25], [5.0, 0.25, 0.25]];
/// let fields = physica::profile(&stations, &verts, &faces, &mut work)?;
/// assert_eq!(fields[1], physica::polyhedron(stations[1], &verts, &faces, &mut work)?);
/// # Ok::<(), Box<dyn std::error::Error>>(())
/// ```
pub fn profile(stations: &[Vector], verts: &[Vector], faces: &[[u32; 3]], work: &mut [u32]) -> Result<Vec<Newtonian>, ProfileError> {
    // Without room for a record the call judges the counts alone, and 12 means that they are within the limits: nothing is allocated for lists that 2
    // refuses. Without stations it is the whole call.
    let counts = profile_into(stations, verts, faces, work, &mut []);
    if counts != Err(Refusal::TooShort) {
        return counts.map(|_| Vec::new()).map_err(|refusal| ProfileError { refusal, before: Vec::new() });
    }
    let mut fields = vec![0.0; FIELD_NUMBERS * stations.len()];
    match profile_into(stations, verts, faces, work, &mut fields) {
        Ok(()) => Ok(records(&fields)),
        Err(refusal) => {
            let mut before = records(&fields);
            before.truncate(filled(refusal));
            Err(ProfileError { refusal, before })
        }
    }
}

/// The same into lent room, `fields` of 13 numbers or more to a station (else refused by 12): the potential, the gradient and the Hessian row by row of each
/// station after the other. After 11 the records before the station that it names are filled; after any other refusal `fields` is as it was.
pub fn profile_into(stations: &[Vector], verts: &[Vector], faces: &[[u32; 3]], work: &mut [u32], fields: &mut [f64]) -> Result<(), Refusal> {
    let (s, v, f) = (stations.as_flattened(), verts.as_flattened(), faces.as_flattened());
    let mut values = [0; 2];
    // SAFETY: each list comes with its own length, and nothing else holds work, fields and values.
    let n = unsafe {
        ffi::physica_profile(
            s.as_ptr(),
            s.len(),
            v.as_ptr(),
            v.len(),
            f.as_ptr(),
            f.len(),
            work.as_mut_ptr(),
            work.len(),
            fields.as_mut_ptr(),
            fields.len(),
            &mut values,
        )
    };
    answer_with(n, (), values)
}

/// How many records a profile fills before it is refused.
fn filled(refusal: Refusal) -> usize {
    match refusal {
        Refusal::TooManyEdges { station } => station as usize,
        _ => 0,
    }
}

fn records(fields: &[f64]) -> Vec<Newtonian> {
    fields.chunks_exact(FIELD_NUMBERS).map(|n| Newtonian::of(core::array::from_fn(|i| n[i]))).collect()
}
