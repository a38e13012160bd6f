//! Gravity and magnetic fields of meshes and prisms, elliptic integrals, result sheets and their check: safe calls of the static library `libphysica.a`,
//! whose functions are proved equal to published definitions, bit for bit. Every call ends with its answer or a numbered [`Refusal`].
//!
//! Build the library first, at the repository's root: `sh tools/library.sh`. The variable `PHYSICA_LIB_DIR` names another folder that holds it.
//!
//! A body is a [`Mesh`], which [`read_obj`] reads from a shape model's text; a sheet's bytes are read by [`Sheet`]. The functions beside them are the library's
//! calls one by one, on lent lists.
//!
//! ```
//! use physica::{Mesh, Sheet};
//! // the tetrahedron of volume 1/6, and its field from points outside
//! let verts = [[0.0, 0.0, 0.0], [1.0, 0.0, 0.0], [0.0, 1.0, 0.0], [0.0, 0.0, 1.0]];
//! let faces = [[0, 2, 1], [0, 1, 3], [0, 3, 2], [1, 2, 3]];
//! let mut mesh = Mesh::new(&verts, &faces)?;
//! assert!((mesh.field([4.0, 0.25, 0.25])?.potential - 0.0444).abs() < 1e-4);
//!
//! let bytes = mesh.sheet([1.0, 2.0, -2.0], [2e-5, 0.0, 4.5e-5], &[[2.0, 0.25, 0.25], [9.0, -3.0, 4.0]])?;
//! let sheet = Sheet::open(&bytes)?;
//! sheet.check()?;
//! for (station, row) in sheet.points() {
//!     println!("{station:?} {row:?}");
//! }
//! # Ok::<(), physica::Refusal>(())
//! ```
pub mod ffi;
mod mesh;
mod obj;
mod profiles;
mod reading;
mod refusal;
mod sheets;

pub use mesh::Mesh;
pub use obj::{read_obj, read_obj_into, write_obj, write_obj_into};
pub use profiles::{profile, profile_into, ProfileError};
pub use reading::{sheet_row, sheet_rows, sheet_station, sheet_trailer, Row, Rows, Sheet, Stations, Trailer};
pub use refusal::Refusal;
pub use sheets::{check_sheet, sheet_length, write_sheet, write_sheet_into, Accepted, Body};

/// 100 · major + minor of this crate's version. [`library_version`] of the library that belongs to it is the same.
pub const VERSION: u32 = 2;

/// 100 · major + minor of the linked library's version.
pub fn library_version() -> u32 {
    // SAFETY: it takes nothing.
    unsafe { ffi::physica_version() }
}

pub type Vector = [f64; 3];

/// Three rows.
pub type Matrix = [[f64; 3]; 3];

/// A field at G·ρ = 1: the potential V (m²), its gradient (m) and its Hessian (no unit); times G·ρ they are m²/s², m/s² and 1/s².
///
/// V is the integral of 1/r over the body: V > 0, and the attraction is +gradient. A field is these thirteen numbers and no more, so callers may make one
/// and take it apart.
#[derive(Clone, Copy, Debug, PartialEq)]
pub struct Newtonian {
    pub potential: f64,
    pub gradient: Vector,
    pub hessian: Matrix,
}

impl Newtonian {
    fn of(n: [f64; 13]) -> Newtonian {
        Newtonian {
            potential: n[0],
            gradient: [n[1], n[2], n[3]],
            hessian: [[n[4], n[5], n[6]], [n[7], n[8], n[9]], [n[10], n[11], n[12]]],
        }
    }
}

/// 0 is an answer, any other number a refusal without values.
fn answer<T>(number: u32, out: T) -> Result<T, Refusal> {
    answer_with(number, out, [0, 0])
}

fn answer_with<T>(number: u32, out: T, values: [u32; 2]) -> Result<T, Refusal> {
    match number {
        0 => Ok(out),
        _ => Err(Refusal::of(number, values)),
    }
}

fn nine(m: &Matrix) -> *const [f64; 9] {
    m.as_ptr().cast()
}

/// Carlson's R_C(x, y), for finite x ≥ 0 and y. Refused by 14, 15.
///
/// ```
/// assert_eq!(physica::carlson_rc(0.0, 0.25), Ok(std::f64::consts::PI));
/// assert_eq!(physica::carlson_rc(1.0, 0.0), Ok(f64::INFINITY));
/// ```
pub fn carlson_rc(x: f64, y: f64) -> Result<f64, Refusal> {
    let mut out = 0.0;
    // SAFETY: out is one number, which nothing else holds.
    let n = unsafe { ffi::physica_carlson_rc(x, y, &mut out) };
    answer(n, out)
}

/// Carlson's R_F(x, y, z), for finite numbers ≥ 0 of which at most one is zero. Refused by 14, 15.
///
/// ```
/// assert_eq!(physica::carlson_rf(1.0, 1.0, 1.0), Ok(1.0));
/// ```
pub fn carlson_rf(x: f64, y: f64, z: f64) -> Result<f64, Refusal> {
    let mut out = 0.0;
    // SAFETY: as above.
    let n = unsafe { ffi::physica_carlson_rf(x, y, z, &mut out) };
    answer(n, out)
}

/// Carlson's R_D(x, y, z), as R_F, and z > 0. Refused by 14, 15.
pub fn carlson_rd(x: f64, y: f64, z: f64) -> Result<f64, Refusal> {
    let mut out = 0.0;
    // SAFETY: as above.
    let n = unsafe { ffi::physica_carlson_rd(x, y, z, &mut out) };
    answer(n, out)
}

/// Carlson's R_J(x, y, z, p), as R_F, and p finite. Refused by 14, 15.
pub fn carlson_rj(x: f64, y: f64, z: f64, p: f64) -> Result<f64, Refusal> {
    let mut out = 0.0;
    // SAFETY: as above.
    let n = unsafe { ffi::physica_carlson_rj(x, y, z, p, &mut out) };
    answer(n, out)
}

/// K(m) and E(m), for 0 ≤ m < 1. Refused by 14.
///
/// ```
/// let (k, e) = physica::complete_elliptic(0.5)?;
/// assert!((k - 1.854074677301372).abs() < 1e-14 && (e - 1.350643881047675).abs() < 1e-14);
/// assert!(physica::complete_elliptic(1.0).is_err());
/// # Ok::<(), physica::Refusal>(())
/// ```
pub fn complete_elliptic(m: f64) -> Result<(f64, f64), Refusal> {
    let mut out = [0.0; 2];
    // SAFETY: out is two numbers, which nothing else holds.
    let n = unsafe { ffi::physica_complete_elliptic(m, &mut out) };
    answer(n, (out[0], out[1]))
}

/// Bulirsch's cel(k_c, p, a, b), for finite numbers and p > 0. Refused by 14.
pub fn cel(kc: f64, p: f64, a: f64, b: f64) -> Result<f64, Refusal> {
    let mut out = 0.0;
    // SAFETY: out is one number, which nothing else holds.
    let n = unsafe { ffi::physica_cel(kc, p, a, b, &mut out) };
    answer(n, out)
}

/// The average of 1/r over a ring about the z axis at (ρ, z), and its derivatives by ρ and z. Refused by 3, 14.
///
/// ```
/// let (v, [drho, dz]) = physica::ring(1.0, 0.0, 0.0)?;
/// assert_eq!((v, drho), (1.0, 0.0));
/// assert_eq!(dz, 0.0);
/// # Ok::<(), physica::Refusal>(())
/// ```
pub fn ring(radius: f64, rho: f64, z: f64) -> Result<(f64, [f64; 2]), Refusal> {
    let mut out = [0.0; 3];
    // SAFETY: out is three numbers, which nothing else holds.
    let n = unsafe { ffi::physica_ring(radius, rho, z, &mut out) };
    answer(n, (out[0], [out[1], out[2]]))
}

/// The nodes and weights of an order from 1 to 16. Refused by 14.
///
/// ```
/// assert_eq!(physica::gauss_legendre(1), Ok((vec![0.0], vec![2.0])));
/// ```
pub fn gauss_legendre(order: u32) -> Result<(Vec<f64>, Vec<f64>), Refusal> {
    let (mut nodes, mut weights) = ([0.0; 16], [0.0; 16]);
    // SAFETY: each is sixteen numbers, which nothing else holds.
    let n = unsafe { ffi::physica_gauss_legendre(order, &mut nodes, &mut weights) };
    answer(n, ())?;
    Ok((nodes[..order as usize].to_vec(), weights[..order as usize].to_vec()))
}

/// The field of the rectangular prism from `min` to `max`. Refused by 3, 9, 10.
///
/// Near a prism whose longest side is over twice its shortest it may be the sum over two halves, and these over theirs: cut across the longest side, of
/// equal ones the first of x, y, z. Sheets of kind 2 ([`Body::Prism`]) cut the last, so that where a piece has equal longest sides, as a square plate
/// has, their rows may differ from this by rounding, and 10 may refuse other stations.
///
/// ```
/// let far = physica::prism([1000.0, 0.0, 0.0], [-1.0; 3], [1.0; 3])?;
/// assert!((far.potential - 8.0 / 1000.0).abs() < 1e-9);
/// assert_eq!(physica::prism([9.0; 3], [0.0; 3], [1.0, 1.0, 0.0]), Err(physica::Refusal::TooThin));
/// # Ok::<(), physica::Refusal>(())
/// ```
pub fn prism(station: Vector, min: Vector, max: Vector) -> Result<Newtonian, Refusal> {
    let (mut out, mut values) = ([0.0; 13], [0; 2]);
    // SAFETY: each is as long as its type says, and nothing else holds out and values.
    let n = unsafe { ffi::physica_prism(&station, &min, &max, &mut out, &mut values) };
    answer_with(n, Newtonian::of(out), values)
}

/// The volume of a mesh that is closed, wound consistently and outwards. `work` is lent: three entries or more to a face; afterwards its front is the
/// order list, but after 2, 12, 3 and 4. Refused by 2, 12, 3, 4, 5, 6, 7, 8. [`Mesh`] has a work list of its own.
///
/// ```
/// let verts = [[0.0, 0.0, 0.0], [1.0, 0.0, 0.0], [0.0, 1.0, 0.0], [0.0, 0.0, 1.0]];
/// let faces = [[0, 2, 1], [0, 1, 3], [0, 3, 2], [1, 2, 3]];
/// let mut work = [0; 12];
/// assert_eq!(physica::check_mesh(&verts, &faces, &mut work), Ok(1.0 / 6.0));
/// assert_eq!(work, [3, 0, 6, 2, 9, 4, 8, 1, 10, 5, 11, 7]);
/// ```
pub fn check_mesh(verts: &[Vector], faces: &[[u32; 3]], work: &mut [u32]) -> Result<f64, Refusal> {
    let (v, f) = (verts.as_flattened(), faces.as_flattened());
    let (mut out, mut values) = (0.0, [0; 2]);
    // SAFETY: each list comes with its own length, and nothing else holds work, out and values.
    let n = unsafe { ffi::physica_check_mesh(v.as_ptr(), v.len(), f.as_ptr(), f.len(), work.as_mut_ptr(), work.len(), &mut out, &mut values) };
    answer_with(n, out, values)
}

/// The field of a mesh at a station; the mesh is checked first. `work` is as for [`check_mesh`]. Refused by 2, 12, 3, 4, 5, 6, 7, 8, 11.
pub fn polyhedron(station: Vector, verts: &[Vector], faces: &[[u32; 3]], work: &mut [u32]) -> Result<Newtonian, Refusal> {
    let (v, f) = (verts.as_flattened(), faces.as_flattened());
    let (mut out, mut values) = ([0.0; 13], [0; 2]);
    // SAFETY: as above.
    let n = unsafe { ffi::physica_polyhedron(&station, v.as_ptr(), v.len(), f.as_ptr(), f.len(), work.as_mut_ptr(), work.len(), &mut out, &mut values) };
    answer_with(n, Newtonian::of(out), values)
}

/// The field B (T) of a uniformly magnetised body from the Hessian of its potential, outside the body or inside, where it is B = μ₀(H + M) and not μ₀H.
/// Refused by 3.
pub fn body(hessian: Matrix, magnetisation: Vector) -> Result<Vector, Refusal> {
    let mut out = [0.0; 3];
    // SAFETY: nine numbers lie one after the other in a Matrix; out is three, which nothing else holds.
    let n = unsafe { ffi::physica_body(nine(&hessian), &magnetisation, &mut out) };
    answer(n, out)
}

/// The total-field anomaly |F + B| − |F| (T): by how much an anomaly B changes what a total-field magnetometer reads in the ambient field F. NaN where
/// both are zero. Refused by 3.
///
/// ```
/// assert_eq!(physica::total_field([0.0; 3], [3.0, 4.0, 0.0]), Ok(5.0));
/// ```
pub fn total_field(ambient: Vector, anomaly: Vector) -> Result<f64, Refusal> {
    let mut out = 0.0;
    // SAFETY: out is one number, which nothing else holds.
    let n = unsafe { ffi::physica_total_field(&ambient, &anomaly, &mut out) };
    answer(n, out)
}

/// The field (T) at `p` of a sphere of radius > 0. Refused by 3, 14.
pub fn sphere(p: Vector, centre: Vector, radius: f64, magnetisation: Vector) -> Result<Vector, Refusal> {
    let mut out = [0.0; 3];
    // SAFETY: out is three numbers, which nothing else holds.
    let n = unsafe { ffi::physica_sphere(&p, &centre, radius, &magnetisation, &mut out) };
    answer(n, out)
}

/// The field (T) at `p` of an endless cylinder through `point`, radius > 0. Refused by 3, 14.
pub fn cylinder(p: Vector, point: Vector, axis: Vector, radius: f64, magnetisation: Vector) -> Result<Vector, Refusal> {
    let mut out = [0.0; 3];
    // SAFETY: as above.
    let n = unsafe { ffi::physica_cylinder(&p, &point, &axis, radius, &magnetisation, &mut out) };
    answer(n, out)
}

/// The demagnetising factors of an ellipsoid of semi-axes > 0. Refused by 3, 14, 15.
///
/// ```
/// let [a, b, c] = physica::ellipsoid_factors(1.0, 1.0, 1.0)?;
/// assert!((a - 1.0 / 3.0).abs() < 1e-15 && a == b && b == c);
/// # Ok::<(), physica::Refusal>(())
/// ```
pub fn ellipsoid_factors(a: f64, b: f64, c: f64) -> Result<Vector, Refusal> {
    let mut out = [0.0; 3];
    // SAFETY: as above.
    let n = unsafe { ffi::physica_ellipsoid_factors(a, b, c, &mut out) };
    answer(n, out)
}

/// The magnetisation (A/m) of a body of susceptibility `chi` and demagnetising tensor `n` in the field `h0` (A/m). Refused by 3.
pub fn magnetisation(chi: f64, h0: Vector, remanent: Vector, n: Matrix) -> Result<Vector, Refusal> {
    let mut out = [0.0; 3];
    // SAFETY: nine numbers lie one after the other in a Matrix; out is three, which nothing else holds.
    let number = unsafe { ffi::physica_magnetisation(chi, &h0, &remanent, nine(&n), &mut out) };
    answer(number, out)
}

/// Koenigsberger's ratio of remanent to induced magnetisation. Refused by 3.
pub fn koenigsberger(remanent: Vector, chi: f64, h0: Vector) -> Result<f64, Refusal> {
    let mut out = 0.0;
    // SAFETY: out is one number, which nothing else holds.
    let n = unsafe { ffi::physica_koenigsberger(&remanent, chi, &h0, &mut out) };
    answer(n, out)
}
