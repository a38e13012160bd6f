use crate::{answer_with, ffi, Refusal, Vector};

/// What a sheet is made for. Not exhaustive: later kinds of sheets come as further cases.
#[derive(Clone, Copy, Debug)]
#[non_exhaustive]
pub enum Body<'a> {
    /// Kind 1: a closed mesh of triangles, wound outwards.
    Mesh { verts: &'a [Vector], faces: &'a [[u32; 3]] },
    /// Kind 2: the rectangular prism from `min` to `max`; of equal longest sides of a piece the last of x, y, z is cut, by [`crate::prism`] the first.
    Prism { min: Vector, max: Vector },
}

impl Body<'_> {
    /// The kind of its sheet.
    pub fn kind(&self) -> u32 {
        match self {
            Body::Mesh { .. } => 1,
            Body::Prism { .. } => 2,
        }
    }

    /// The length in bytes of its sheet with so many stations. Refused by 2, for counts of any size.
    ///
    /// ```
    /// use physica::{Body, Refusal};
    /// let cube = Body::Prism { min: [0.0; 3], max: [1.0; 3] };
    /// assert_eq!(cube.sheet_length(2), Ok(24 * 2 + 88 * 2 + 80));
    /// assert_eq!(cube.sheet_length(usize::MAX), Err(Refusal::TooMany));
    /// ```
    pub fn sheet_length(&self, stations: usize) -> Result<usize, Refusal> {
        let (v, f) = match self {
            Body::Mesh { verts, faces } => (verts.len(), faces.len()),
            Body::Prism { .. } => (2, 0),
        };
        // SAFETY: it takes numbers alone.
        match unsafe { ffi::physica_sheet_length(self.kind(), v, f, stations) } {
            0 => Err(Refusal::TooMany),
            length => Ok(length),
        }
    }
}

/// What the check found of an accepted sheet: its kind and how many stations it has. Not exhaustive: a later version may find more.
#[derive(Clone, Copy, Debug, PartialEq, Eq)]
#[non_exhaustive]
pub struct Accepted {
    pub kind: u32,
    pub stations: u32,
}

/// A point's bytes, of a vertex or a station: three floats.
const POINT_BYTES: usize = 3 * 8;
/// A face's bytes: its corners, and the order list's entries and the mates of its three edge uses, four bytes each.
const FACE_BYTES: usize = 3 * 3 * 4;
/// The bytes of a row of kind 1 or 2.
const ROW_BYTES: usize = 8 * 8;
pub(crate) const TRAILER_BYTES: usize = 80;

/// The length in bytes of a sheet of kind 1 or 2; `usize::MAX` for counts so large, far beyond those of refusal 2, that it does not fit.
/// [`Body::sheet_length`] has the limits.
pub fn sheet_length(vertices: usize, faces: usize, stations: usize) -> usize {
    TRAILER_BYTES
        .saturating_add(vertices.saturating_mul(POINT_BYTES))
        .saturating_add(faces.saturating_mul(FACE_BYTES))
        .saturating_add(stations.saturating_mul(POINT_BYTES + ROW_BYTES))
}

/// The sheet of a body and of the stations' fields. Refused by 2, before anything is allocated, by 3, 4, 5 to 8 or 9, then station by station 10 or 11, 13.
///
/// ```
/// use physica::{write_sheet, Body, Refusal, Sheet};
/// let cube = Body::Prism { min: [0.0; 3], max: [1.0; 3] };
/// let bytes = write_sheet(cube, [1.0, 2.0, -2.0], [2e-5, 0.0, 4.5e-5], &[[3.0, 0.0, 0.0], [0.0, 9.0, 0.0]])?;
/// let sheet = Sheet::open(&bytes)?;
/// assert_eq!(sheet.check()?.stations, 2);
/// assert!(sheet.rows().all(|row| row.potential > 0.0));
///
/// // one bit of the first row
/// let mut damaged = bytes.clone();
/// damaged[96] ^= 1;
/// assert_eq!(physica::check_sheet(&damaged), Err(Refusal::WrongRow { station: 0 }));
/// # Ok::<(), physica::Refusal>(())
/// ```
pub fn write_sheet(body: Body, magnetisation: Vector, ambient: Vector, stations: &[Vector]) -> Result<Vec<u8>, Refusal> {
    let length = body.sheet_length(stations.len())?;
    let entries = match body {
        Body::Mesh { faces, .. } => 3 * faces.len(),
        Body::Prism { .. } => 0,
    };
    let (mut work, mut out) = (vec![0; entries], vec![0; length]);
    write_sheet_into(body, magnetisation, ambient, stations, &mut work, &mut out)?;
    Ok(out)
}

/// The same into lent room: `work` of three entries or more to a face, `out` of [`Body::sheet_length`] bytes or more. Answers the sheet's length. Refused by
/// 12 too. After 10, 11 and 13 the sheet's length in `out` is zeroed; after any other refusal `out` is as it was.
pub fn write_sheet_into(
    body: Body,
    magnetisation: Vector,
    ambient: Vector,
    stations: &[Vector],
    work: &mut [u32],
    out: &mut [u8],
) -> Result<usize, Refusal> {
    let corners;
    let (v, f): (&[f64], &[u32]) = match body {
        Body::Mesh { verts, faces } => (verts.as_flattened(), faces.as_flattened()),
        Body::Prism { min, max } => {
            corners = [min, max];
            (corners.as_flattened(), &[])
        }
    };
    let s = stations.as_flattened();
    let (mut size, mut values) = (0, [0; 2]);
    // SAFETY: each list comes with its own length, and nothing else holds work, out, size and values.
    let n = unsafe {
        ffi::physica_write_sheet(
            body.kind(),
            v.as_ptr(),
            v.len(),
            f.as_ptr(),
            f.len(),
            &magnetisation,
            &ambient,
            s.as_ptr(),
            s.len(),
            work.as_mut_ptr(),
            work.len(),
            out.as_mut_ptr(),
            out.len(),
            &mut size,
            &mut values,
        )
    };
    answer_with(n, size, values)
}

/// Is every byte of the sheet what the definitions give? Refused by 16, 1, 2, 3, 4, 17, 18, then 7, 8 or 9, 19, then station by station 10 or 11, 13, 20.
/// It takes up to 1.4 MB of stack; a thread of Rust has 2 MB by default.
///
/// ```
/// assert_eq!(physica::check_sheet(b"no sheet"), Err(physica::Refusal::WrongLength));
/// ```
pub fn check_sheet(sheet: &[u8]) -> Result<Accepted, Refusal> {
    let (mut found, mut values) = ([0; 2], [0; 2]);
    // SAFETY: the sheet comes with its length, and nothing else holds found and values.
    let n = unsafe { ffi::physica_check_sheet(sheet.as_ptr(), sheet.len(), &mut found, &mut values) };
    answer_with(n, Accepted { kind: found[0], stations: found[1] }, values)
}
