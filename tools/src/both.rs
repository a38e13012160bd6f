//! Each public call asked twice: of the library, and of the reference build with document 01's causes of refusal before it. The answers are put in one form.
use geopotential::bodies::{self, MeshError};
use geopotential::{gauss_legendre, special};
use magnetics::anomaly;
use physica::ffi;
use std::collections::HashMap;
use std::panic::{catch_unwind, AssertUnwindSafe};

pub mod obj;

/// What a lent number holds before a call; a refusal leaves it.
pub const BEFORE: f64 = -12345.678;
pub const BEFORE_WORK: u32 = 0xdead_beef;
pub const BEFORE_OUT: u8 = 0xa5;
const BEFORE_SIZE: usize = 7777;
const BEFORE_VALUES: [u32; 2] = [9; 2];

pub type V3 = [f64; 3];
pub type M3 = [[f64; 3]; 3];

/// The number (0: an answer), the refusal's values, and all that is lent, afterwards; every NaN is one.
#[derive(Clone, Debug, PartialEq)]
pub struct Answer {
    pub number: u32,
    pub values: [u32; 2],
    pub numbers: Vec<u64>,
    pub work: Vec<u32>,
    pub out: Vec<u8>,
}

pub fn bits(x: f64) -> u64 {
    if x.is_nan() { 0x7ff8_0000_0000_0000 } else { x.to_bits() }
}

impl Answer {
    pub fn numbers(number: u32, values: [u32; 2], out: &[f64]) -> Answer {
        Answer { number, values, numbers: out.iter().map(|&x| bits(x)).collect(), work: vec![], out: vec![] }
    }
    /// A call that lends `n` numbers refuses.
    pub fn refused(number: u32, values: [u32; 2], n: usize) -> Answer {
        Answer::numbers(number, values, &vec![BEFORE; n])
    }
}

/// To be called once, before all else.
pub fn start() {
    standin::RC.set(special::carlson_rc).unwrap();
    std::panic::set_hook(Box::new(|_| {}));
}

/// The reference's numbers, or the number by which it refuses (10, 11, 15).
pub fn caught<T>(f: impl FnOnce() -> T) -> Result<T, u32> {
    catch_unwind(AssertUnwindSafe(f)).map_err(|e| match e.downcast_ref::<standin::Refusal>() {
        Some(r) => r.0,
        None => panic!("the reference build panicked: {:?}", e.downcast_ref::<String>()),
    })
}

fn reference<const N: usize>(cause: u32, f: impl FnOnce() -> [f64; N]) -> Answer {
    if cause != 0 {
        return Answer::refused(cause, [0, 0], N);
    }
    match caught(f) {
        Ok(out) => Answer::numbers(0, [0, 0], &out),
        Err(number) => Answer::refused(number, [0, 0], N),
    }
}

// ---- document 01's causes

pub fn within(x: f64) -> bool {
    x.is_finite() && x.abs() <= 1e9
}
pub fn all_within(xs: &[f64]) -> bool {
    xs.iter().all(|&x| within(x))
}
/// 0 if the test holds, else the number.
fn unless(test: bool, number: u32) -> u32 {
    if test { 0 } else { number }
}
/// The first that is not 0.
fn first(causes: &[u32]) -> u32 {
    causes.iter().copied().find(|&n| n != 0).unwrap_or(0)
}
fn carlson_domain(v: &[f64]) -> bool {
    v.iter().all(|x| x.is_finite() && *x >= 0.0) && v.iter().filter(|x| **x == 0.0).count() <= 1
}

// ---- numbers; each takes its arguments as one list

pub fn v3(a: &[f64]) -> V3 {
    [a[0], a[1], a[2]]
}
pub fn m3(a: &[f64]) -> M3 {
    [v3(a), v3(&a[3..]), v3(&a[6..])]
}
fn nine(a: &[f64]) -> [f64; 9] {
    core::array::from_fn(|i| a[i])
}
pub fn field(f: bodies::Newtonian) -> [f64; 13] {
    let (v, g, t) = f;
    [v, g[0], g[1], g[2], t[0][0], t[0][1], t[0][2], t[1][0], t[1][1], t[1][2], t[2][0], t[2][1], t[2][2]]
}

fn one(call: impl FnOnce(*mut f64) -> u32) -> Answer {
    let mut out = BEFORE;
    let n = call(&mut out);
    Answer::numbers(n, [0, 0], &[out])
}
fn some<const N: usize>(call: impl FnOnce(*mut [f64; N]) -> u32) -> Answer {
    let mut out = [BEFORE; N];
    let n = call(&mut out);
    Answer::numbers(n, [0, 0], &out)
}

pub struct Call {
    pub name: &'static str,
    /// How many numbers it takes.
    pub takes: usize,
    pub here: fn(&[f64]) -> Answer,
    pub reference: fn(&[f64]) -> Answer,
}

/// The calls on numbers and vectors.
pub const CALLS: [Call; 15] = [
    Call { name: "carlson_rc", takes: 2, here: |a| one(|o| unsafe { ffi::physica_carlson_rc(a[0], a[1], o) }),
        reference: |a| reference(unless(a[0].is_finite() && a[1].is_finite() && a[0] >= 0.0, 14), || [special::carlson_rc(a[0], a[1])]) },
    Call { name: "carlson_rf", takes: 3, here: |a| one(|o| unsafe { ffi::physica_carlson_rf(a[0], a[1], a[2], o) }),
        reference: |a| reference(unless(carlson_domain(a), 14), || [special::carlson_rf(a[0], a[1], a[2])]) },
    Call { name: "carlson_rd", takes: 3, here: |a| one(|o| unsafe { ffi::physica_carlson_rd(a[0], a[1], a[2], o) }),
        reference: |a| reference(unless(carlson_domain(a) && a[2] > 0.0, 14), || [special::carlson_rd(a[0], a[1], a[2])]) },
    Call { name: "carlson_rj", takes: 4, here: |a| one(|o| unsafe { ffi::physica_carlson_rj(a[0], a[1], a[2], a[3], o) }),
        reference: |a| reference(unless(carlson_domain(&a[..3]) && a[3].is_finite(), 14), || [special::carlson_rj(a[0], a[1], a[2], a[3])]) },
    Call { name: "complete_elliptic", takes: 1, here: |a| some(|o| unsafe { ffi::physica_complete_elliptic(a[0], o) }),
        reference: |a| reference(unless(0.0 <= a[0] && a[0] < 1.0, 14), || { let (k, e) = special::complete_elliptic(a[0]); [k, e] }) },
    Call { name: "cel", takes: 4, here: |a| one(|o| unsafe { ffi::physica_cel(a[0], a[1], a[2], a[3], o) }),
        reference: |a| reference(unless(a.iter().all(|x| x.is_finite()) && a[1] > 0.0, 14), || [special::cel(a[0], a[1], a[2], a[3])]) },
    Call { name: "ring", takes: 3, here: |a| some(|o| unsafe { ffi::physica_ring(a[0], a[1], a[2], o) }),
        reference: |a| {
            let (r, rho, z) = (a[0], a[1], a[2]);
            let (s, d) = ((r + rho) * (r + rho) + z * z, (r - rho) * (r - rho) + z * z);
            let domain = r > 0.0 && rho >= 0.0 && d > 0.0 && 4.0 * r * rho / s < 1.0;
            reference(first(&[unless(all_within(a), 3), unless(domain, 14)]), || { let (v, [x, y]) = special::ring(r, rho, z); [v, x, y] })
        } },
    Call { name: "prism", takes: 9, here: |a| {
            let (mut out, mut values) = ([BEFORE; 13], BEFORE_VALUES);
            let n = unsafe { ffi::physica_prism(&v3(a), &v3(&a[3..]), &v3(&a[6..]), &mut out, &mut values) };
            Answer::numbers(n, values, &out)
        },
        reference: |a| reference(first(&[unless(all_within(a), 3), unless(prism_sides(&a[3..]), 9)]), || field(bodies::prism(v3(a), v3(&a[3..]), v3(&a[6..])))) },
    Call { name: "body", takes: 12, here: |a| some(|o| unsafe { ffi::physica_body(&nine(a), &v3(&a[9..]), o) }),
        reference: |a| reference(unless(all_within(a), 3), || anomaly::body(m3(a), v3(&a[9..]))) },
    Call { name: "total_field", takes: 6, here: |a| one(|o| unsafe { ffi::physica_total_field(&v3(a), &v3(&a[3..]), o) }),
        reference: |a| reference(unless(all_within(a), 3), || [anomaly::total_field(v3(a), v3(&a[3..]))]) },
    Call { name: "sphere", takes: 10, here: |a| some(|o| unsafe { ffi::physica_sphere(&v3(a), &v3(&a[3..]), a[6], &v3(&a[7..]), o) }),
        reference: |a| reference(first(&[unless(all_within(a), 3), unless(a[6] > 0.0, 14)]), || anomaly::sphere(v3(a), v3(&a[3..]), a[6], v3(&a[7..]))) },
    Call { name: "cylinder", takes: 13, here: |a| some(|o| unsafe { ffi::physica_cylinder(&v3(a), &v3(&a[3..]), &v3(&a[6..]), a[9], &v3(&a[10..]), o) }),
        reference: |a| {
            let domain = a[9] > 0.0 && (a[6] * a[6] + a[7] * a[7] + a[8] * a[8]).sqrt() > 0.0;
            reference(first(&[unless(all_within(a), 3), unless(domain, 14)]), || anomaly::cylinder(v3(a), v3(&a[3..]), v3(&a[6..]), a[9], v3(&a[10..])))
        } },
    Call { name: "ellipsoid_factors", takes: 3, here: |a| some(|o| unsafe { ffi::physica_ellipsoid_factors(a[0], a[1], a[2], o) }),
        reference: |a| reference(first(&[unless(all_within(a), 3), unless(a.iter().all(|&x| x > 0.0), 14)]), || anomaly::ellipsoid_factors(a[0], a[1], a[2])) },
    Call { name: "magnetisation", takes: 16, here: |a| some(|o| unsafe { ffi::physica_magnetisation(a[0], &v3(&a[1..]), &v3(&a[4..]), &nine(&a[7..]), o) }),
        reference: |a| reference(unless(all_within(a), 3), || anomaly::magnetisation(a[0], v3(&a[1..]), v3(&a[4..]), m3(&a[7..]))) },
    Call { name: "koenigsberger", takes: 7, here: |a| one(|o| unsafe { ffi::physica_koenigsberger(&v3(a), a[3], &v3(&a[4..]), o) }),
        reference: |a| reference(unless(all_within(a), 3), || [anomaly::koenigsberger(v3(a), a[3], v3(&a[4..]))]) },
];

// ---- the rule

pub fn rule_here(order: u32) -> Answer {
    let (mut x, mut w) = ([BEFORE; 16], [BEFORE; 16]);
    let n = unsafe { ffi::physica_gauss_legendre(order, &mut x, &mut w) };
    Answer::numbers(n, [0, 0], &[x, w].concat())
}

pub fn rule_reference(order: u32) -> Answer {
    if !(1..=16).contains(&order) {
        return Answer::refused(14, [0, 0], 32);
    }
    let (mut x, mut w) = gauss_legendre(order as usize);
    x.resize(16, 0.0);
    w.resize(16, 0.0);
    Answer::numbers(0, [0, 0], &[x, w].concat())
}

// ---- meshes

/// Flat lists, as the library takes them, and how long a work is lent.
#[derive(Clone, Debug)]
pub struct Mesh {
    pub verts: Vec<f64>,
    pub faces: Vec<u32>,
    pub room: usize,
}

pub fn points(flat: &[f64]) -> Vec<V3> {
    flat.chunks_exact(3).map(v3).collect()
}
pub fn corners(faces: &[u32]) -> Vec<[usize; 3]> {
    faces.chunks_exact(3).map(|f| [f[0] as usize, f[1] as usize, f[2] as usize]).collect()
}

/// The edge, from and to, of use number u.
fn edge(faces: &[u32], u: usize) -> (u32, u32) {
    (faces[u], faces[if u % 3 == 2 { u - 2 } else { u + 1 }])
}

/// All edge uses by from, to, use number.
pub fn order_list(faces: &[u32]) -> Vec<u32> {
    let mut o: Vec<u32> = (0..faces.len() as u32).collect();
    o.sort_by_key(|&u| (edge(faces, u as usize), u));
    o
}

/// 4 to 8 with their values, or the volume.
pub fn surface(verts: &[f64], faces: &[u32]) -> Result<f64, (u32, [u32; 2])> {
    if let Some(i) = faces.iter().position(|&i| i as usize >= verts.len() / 3) {
        return Err((4, [i as u32 / 3, 0]));
    }
    bodies::check_mesh(&points(verts), &corners(faces)).map_err(|e| match e {
        MeshError::Flipped(a, b) => (5, [a as u32, b as u32]),
        MeshError::Open(a, b) => (6, [a as u32, b as u32]),
        MeshError::Degenerate(k) => (7, [k as u32, 0]),
        MeshError::Inverted => (8, [0, 0]),
    })
}

fn count_cause(m: &Mesh) -> u32 {
    first(&[
        unless(m.verts.len() % 3 == 0 && m.faces.len() % 3 == 0, 1),
        unless(m.verts.len() / 3 <= 20_000 && m.faces.len() / 3 <= 32_768, 2),
        unless(m.faces.len() <= m.room, 12),
    ])
}

/// Work afterwards.
fn work_after(number: u32, faces: &[u32], room: usize) -> Vec<u32> {
    let mut work = vec![BEFORE_WORK; room];
    if ![1, 2, 12, 3, 4, 9].contains(&number) {
        work[..faces.len()].copy_from_slice(&order_list(faces));
    }
    work
}

pub fn mesh_here(m: &Mesh) -> Answer {
    let (mut work, mut out, mut values) = (vec![BEFORE_WORK; m.room], BEFORE, BEFORE_VALUES);
    let n = unsafe {
        ffi::physica_check_mesh(m.verts.as_ptr(), m.verts.len(), m.faces.as_ptr(), m.faces.len(), work.as_mut_ptr(), work.len(), &mut out, &mut values)
    };
    Answer { work, ..Answer::numbers(n, values, &[out]) }
}

pub fn mesh_reference(m: &Mesh) -> Answer {
    let answer = match first(&[count_cause(m), unless(all_within(&m.verts), 3)]) {
        0 => match surface(&m.verts, &m.faces) {
            Ok(volume) => Answer::numbers(0, [0, 0], &[volume]),
            Err((n, values)) => Answer::refused(n, values, 1),
        },
        n => Answer::refused(n, [0, 0], 1),
    };
    Answer { work: work_after(answer.number, &m.faces, m.room), ..answer }
}

pub fn polyhedron_here(p: V3, m: &Mesh) -> Answer {
    let (mut work, mut out, mut values) = (vec![BEFORE_WORK; m.room], [BEFORE; 13], BEFORE_VALUES);
    let n = unsafe {
        ffi::physica_polyhedron(&p, m.verts.as_ptr(), m.verts.len(), m.faces.as_ptr(), m.faces.len(), work.as_mut_ptr(), work.len(), &mut out, &mut values)
    };
    Answer { work, ..Answer::numbers(n, values, &out) }
}

pub fn polyhedron_reference(p: V3, m: &Mesh) -> Answer {
    let answer = match first(&[count_cause(m), unless(all_within(&m.verts) && all_within(&p), 3)]) {
        0 => match surface(&m.verts, &m.faces) {
            Ok(_) => reference(0, || field(bodies::polyhedron(p, &points(&m.verts), &corners(&m.faces)))),
            Err((n, values)) => Answer::refused(n, values, 13),
        },
        n => Answer::refused(n, [0, 0], 13),
    };
    Answer { work: work_after(answer.number, &m.faces, m.room), ..answer }
}

// ---- profiles

#[derive(Clone, Debug)]
pub struct Profile {
    pub mesh: Mesh,
    pub stations: Vec<f64>,
    /// How many numbers are lent.
    pub room: usize,
}

pub fn profile_here(q: &Profile) -> Answer {
    let (s, v, f) = (&q.stations, &q.mesh.verts, &q.mesh.faces);
    let (mut work, mut fields, mut values) = (vec![BEFORE_WORK; q.mesh.room], vec![BEFORE; q.room], BEFORE_VALUES);
    let n = unsafe {
        ffi::physica_profile(
            s.as_ptr(), s.len(), v.as_ptr(), v.len(), f.as_ptr(), f.len(), work.as_mut_ptr(), work.len(), fields.as_mut_ptr(), fields.len(), &mut values,
        )
    };
    Answer { work, ..Answer::numbers(n, values, &fields) }
}

/// 1, 2, 12 and 3.
fn given_cause(q: &Profile) -> u32 {
    let (m, s) = (&q.mesh, q.stations.len());
    first(&[
        unless(m.verts.len() % 3 == 0 && m.faces.len() % 3 == 0 && s % 3 == 0, 1),
        unless(m.verts.len() / 3 <= 20_000 && m.faces.len() / 3 <= 32_768 && s / 3 <= 65_536, 2),
        unless(m.faces.len() <= m.room && 13 * (s / 3) <= q.room, 12),
        unless(all_within(&m.verts) && all_within(&q.stations), 3),
    ])
}

/// Station by station, up to the first that is refused.
fn profile_fields(q: &Profile, fields: &mut [f64]) -> Result<(), (u32, [u32; 2])> {
    match given_cause(q) {
        0 => surface(&q.mesh.verts, &q.mesh.faces)?,
        n => return Err((n, [0, 0])),
    };
    let (v, f) = (points(&q.mesh.verts), corners(&q.mesh.faces));
    for (i, p) in points(&q.stations).into_iter().enumerate() {
        let record = caught(|| field(bodies::polyhedron(p, &v, &f))).map_err(|n| (n, [i as u32, 0]))?;
        fields[13 * i..13 * i + 13].copy_from_slice(&record);
    }
    Ok(())
}

pub fn profile_reference(q: &Profile) -> Answer {
    let mut fields = vec![BEFORE; q.room];
    let (number, values) = profile_fields(q, &mut fields).err().unwrap_or((0, [0, 0]));
    Answer { work: work_after(number, &q.mesh.faces, q.mesh.room), ..Answer::numbers(number, values, &fields) }
}

// ---- sheets, made and judged by document 01's text over the reference build's fields

#[derive(Clone, Debug)]
pub struct Sheet {
    pub kind: u32,
    pub mesh: Mesh,
    pub magnetisation: V3,
    pub ambient: V3,
    pub stations: Vec<f64>,
    /// How many bytes are lent.
    pub room: usize,
}

fn prism_sides(v: &[f64]) -> bool {
    (0..3).all(|i| !(v[i + 3] - v[i] < 1e-6))
}

/// The row of a station, or 10 or 11. A prism of kind 2 halves the last of equal longest sides, as published.
pub fn row(s: &Sheet, p: V3) -> Result<[f64; 8], u32> {
    let v = &s.mesh.verts;
    let (potential, g, t) = caught(|| match s.kind {
        1 => bodies::polyhedron(p, &points(v), &corners(&s.mesh.faces)),
        _ => bodies::prism_last(p, v3(v), v3(&v[3..])),
    })?;
    let b = anomaly::body(t, s.magnetisation);
    Ok([potential, g[0], g[1], g[2], b[0], b[1], b[2], anomaly::total_field(s.ambient, b)])
}

fn known_kind(kind: u32, v: usize, f: usize) -> bool {
    kind == 1 || (kind == 2 && v == 2 && f == 0)
}

/// 4 to 8 of a mesh, or 9 of a prism; or the volume. Of a sheet that 4, 17 and 18 let through, only 7, 8 and 9 are left.
fn solid(s: &Sheet) -> Result<f64, (u32, [u32; 2])> {
    let v = &s.mesh.verts;
    match s.kind {
        1 => surface(v, &s.mesh.faces),
        _ if prism_sides(v) => Ok((v[3] - v[0]) * (v[4] - v[1]) * (v[5] - v[2])),
        _ => Err((9, [0, 0])),
    }
}

fn put(out: &mut Vec<u8>, xs: &[f64]) {
    xs.iter().for_each(|x| out.extend(bits(*x).to_le_bytes()));
}
fn put_u32(out: &mut Vec<u8>, xs: &[u32]) {
    xs.iter().for_each(|x| out.extend(x.to_le_bytes()));
}

/// For each edge use the use that is its reverse; `u32::MAX` where there is none.
pub fn mates(faces: &[u32]) -> Vec<u32> {
    let uses: HashMap<(u32, u32), u32> = (0..faces.len()).map(|u| (edge(faces, u), u as u32)).collect();
    let reverse = |(from, to)| uses.get(&(to, from)).copied();
    (0..faces.len()).map(|u| reverse(edge(faces, u)).unwrap_or(u32::MAX)).collect()
}

/// The bytes of a sheet with these rows and this volume.
pub fn sheet_bytes(s: &Sheet, rows: &[[f64; 8]], volume: f64) -> Vec<u8> {
    let mut b = Vec::new();
    put(&mut b, &s.mesh.verts);
    put_u32(&mut b, &s.mesh.faces);
    put_u32(&mut b, &order_list(&s.mesh.faces));
    put_u32(&mut b, &mates(&s.mesh.faces));
    put(&mut b, &s.stations);
    rows.iter().for_each(|r| put(&mut b, r));
    let pointer = b.len() as u64;
    put_u32(&mut b, &[s.kind, s.mesh.verts.len() as u32 / 3, s.mesh.faces.len() as u32 / 3, s.stations.len() as u32 / 3]);
    put(&mut b, &s.magnetisation);
    put(&mut b, &s.ambient);
    put(&mut b, &[volume]);
    b.extend(pointer.to_le_bytes());
    b
}

pub fn sheet_length(v: usize, f: usize, n: usize) -> usize {
    24 * v + 36 * f + 88 * n + 80
}

pub fn write_here(s: &Sheet) -> Answer {
    let m = &s.mesh;
    let (mut work, mut out, mut size, mut values) = (vec![BEFORE_WORK; m.room], vec![BEFORE_OUT; s.room], BEFORE_SIZE, BEFORE_VALUES);
    let n = unsafe {
        ffi::physica_write_sheet(
            s.kind, m.verts.as_ptr(), m.verts.len(), m.faces.as_ptr(), m.faces.len(), &s.magnetisation, &s.ambient, s.stations.as_ptr(), s.stations.len(),
            work.as_mut_ptr(), work.len(), out.as_mut_ptr(), out.len(), &mut size, &mut values,
        )
    };
    Answer { number: n, values, numbers: vec![size as u64], work, out }
}

/// The first cause of the writer's order, or the rows and the volume.
fn written(s: &Sheet) -> Result<(Vec<[f64; 8]>, f64), (u32, [u32; 2])> {
    let m = &s.mesh;
    let (v, f, n) = (m.verts.len() / 3, m.faces.len() / 3, s.stations.len() / 3);
    let lists = m.verts.len() % 3 == 0 && m.faces.len() % 3 == 0 && s.stations.len() % 3 == 0;
    let numbers = all_within(&m.verts) && all_within(&s.magnetisation) && all_within(&s.ambient) && all_within(&s.stations);
    let cause = first(&[
        unless(lists && known_kind(s.kind, v, f), 1),
        unless(v <= 20_000 && f <= 32_768 && n <= 65_536, 2),
        unless(m.faces.len() <= m.room && sheet_length(v, f, n) <= s.room, 12),
        unless(numbers, 3),
    ]);
    if cause != 0 {
        return Err((cause, [0, 0]));
    }
    let volume = solid(s)?;
    let mut rows = Vec::new();
    for (i, p) in points(&s.stations).into_iter().enumerate() {
        let r = row(s, p).map_err(|n| (n, [i as u32, 0]))?;
        if r.iter().any(|x| !x.is_finite()) {
            return Err((13, [i as u32, 0]));
        }
        rows.push(r);
    }
    Ok((rows, volume))
}

pub fn write_reference(s: &Sheet) -> Answer {
    let mut out = vec![BEFORE_OUT; s.room];
    let length = sheet_length(s.mesh.verts.len() / 3, s.mesh.faces.len() / 3, s.stations.len() / 3);
    let (number, values, size) = match written(s) {
        Ok((rows, volume)) => {
            out[..length].copy_from_slice(&sheet_bytes(s, &rows, volume));
            (0, [0, 0], length as u64)
        }
        Err((n, values)) => {
            if [10, 11, 13].contains(&n) {
                out[..length].fill(0);
            }
            (n, values, BEFORE_SIZE as u64)
        }
    };
    Answer { number, values, numbers: vec![size], work: work_after(number, &s.mesh.faces, s.mesh.room), out }
}

/// The verdict, then what the readers give: the rows' length, row `i` and the bytes of all rows.
pub fn check_here(sheet: &[u8], i: usize) -> Answer {
    let (mut found, mut values, mut row) = ([7; 2], BEFORE_VALUES, [BEFORE; 8]);
    let n = unsafe { ffi::physica_check_sheet(sheet.as_ptr(), sheet.len(), &mut found, &mut values) };
    let length = unsafe { ffi::physica_sheet_rows(sheet.as_ptr(), sheet.len()) };
    let got = unsafe { ffi::physica_sheet_row(sheet.as_ptr(), sheet.len(), i, &mut row) };
    let mut numbers = vec![found[0] as u64, found[1] as u64, length as u64, got as u64];
    numbers.extend(row.iter().map(|&x| bits(x)));
    Answer { number: n, values, numbers, work: vec![], out: physica::sheet_rows(sheet).to_vec() }
}

struct Reader<'a>(&'a [u8]);
impl Reader<'_> {
    fn u32s(&self, at: usize, n: usize) -> Vec<u32> {
        self.0[at..at + 4 * n].chunks_exact(4).map(|b| u32::from_le_bytes(b.try_into().unwrap())).collect()
    }
    fn u64(&self, at: usize) -> u64 {
        u64::from_le_bytes(self.0[at..at + 8].try_into().unwrap())
    }
    fn f64s(&self, at: usize, n: usize) -> Vec<f64> {
        (0..n).map(|k| f64::from_bits(self.u64(at + 8 * k))).collect()
    }
}

/// 16, 1 and 2; or kind, V, F, S.
fn opened(b: &[u8]) -> Result<[usize; 4], u32> {
    if b.len() < 80 {
        return Err(16);
    }
    let (r, t) = (Reader(b), b.len() - 80);
    let c = r.u32s(t, 4);
    let (v, f, s) = (c[1] as usize, c[2] as usize, c[3] as usize);
    let before = 24 * v + 36 * f + 88 * s;
    match first(&[
        unless(r.u64(t + 72) == before as u64 && b.len() == before + 80, 16),
        unless(known_kind(c[0], v, f), 1),
        unless(v <= 20_000 && f <= 32_768 && s <= 65_536, 2),
    ]) {
        0 => Ok([c[0] as usize, v, f, s]),
        n => Err(n),
    }
}

/// 17: an entry of no edge use, or edges that do not ascend strictly. 18: a mate of no edge use, or not the reverse.
fn lists_cause(faces: &[u32], order: &[u32], mates: &[u32]) -> u32 {
    let to = |u: usize| if u % 3 == 2 { u - 2 } else { u + 1 };
    let edge = |u: u32| (faces[u as usize], faces[to(u as usize)]);
    let uses = |l: &[u32]| l.iter().all(|&u| (u as usize) < faces.len());
    if !uses(order) || order.windows(2).any(|w| edge(w[0]) >= edge(w[1])) {
        return 17;
    }
    unless(uses(mates) && mates.iter().enumerate().all(|(u, &m)| { let (a, b) = edge(m); edge(u as u32) == (b, a) }), 18)
}

/// The first cause of the checker's order after 16, 1 and 2.
fn judged(b: &[u8], [kind, v, f, n]: [usize; 4]) -> Result<(), (u32, [u32; 2])> {
    let (r, t) = (Reader(b), b.len() - 80);
    let at = 24 * v + 36 * f;
    let s = Sheet {
        kind: kind as u32,
        mesh: Mesh { verts: r.f64s(0, 3 * v), faces: r.u32s(24 * v, 3 * f), room: 0 },
        magnetisation: v3(&r.f64s(t + 16, 3)),
        ambient: v3(&r.f64s(t + 40, 3)),
        stations: r.f64s(at, 3 * n),
        room: 0,
    };
    if !(all_within(&s.mesh.verts) && all_within(&s.magnetisation) && all_within(&s.ambient) && all_within(&s.stations)) {
        return Err((3, [0, 0]));
    }
    if let Some(i) = s.mesh.faces.iter().position(|&i| i as usize >= v) {
        return Err((4, [i as u32 / 3, 0]));
    }
    let cause = lists_cause(&s.mesh.faces, &r.u32s(24 * v + 12 * f, 3 * f), &r.u32s(24 * v + 24 * f, 3 * f));
    if cause != 0 {
        return Err((cause, [0, 0]));
    }
    let volume = solid(&s)?;
    if r.u64(t + 64) != bits(volume) {
        return Err((19, [0, 0]));
    }
    for (i, p) in points(&s.stations).into_iter().enumerate() {
        let here = [i as u32, 0];
        let computed = row(&s, p).map_err(|n| (n, here))?;
        if computed.iter().any(|x| !x.is_finite()) {
            return Err((13, here));
        }
        if (0..8).any(|k| r.u64(at + 24 * n + 64 * i + 8 * k) != bits(computed[k])) {
            return Err((20, here));
        }
    }
    Ok(())
}

pub fn check_reference(b: &[u8], i: usize) -> Answer {
    let opening = opened(b);
    let (number, values, found) = match opening {
        Err(n) => (n, [0, 0], [7, 7]),
        Ok(c) => match judged(b, c) {
            Ok(()) => (0, [0, 0], [c[0] as u64, c[3] as u64]),
            Err((n, values)) => (n, values, [7, 7]),
        },
    };
    let (mut row, mut got, mut rows) = (vec![BEFORE; 8], 0, &b[..0]);
    if let Ok([_, v, f, n]) = opening {
        let at = 24 * v + 36 * f + 24 * n;
        rows = &b[at..at + 64 * n];
        if i < n {
            row = Reader(b).f64s(at + 64 * i, 8);
            got = 8;
        }
    }
    let mut numbers = vec![found[0], found[1], rows.len() as u64, got];
    numbers.extend(row.iter().map(|&x| bits(x)));
    Answer { number, values, numbers, work: vec![], out: rows.to_vec() }
}

/// Kind, V, F and S as they stand in the last bytes, of whatever these are the bytes.
fn raw_counts(b: &[u8]) -> [u32; 4] {
    match b.len().checked_sub(80) {
        Some(t) => Reader(b).u32s(t, 4).try_into().unwrap(),
        None => [1, b.len() as u32, 0, 0],
    }
}

/// The trailer, station i, and the length by the counts.
pub fn parts_here(b: &[u8], i: usize) -> Answer {
    let (mut counts, mut numbers, mut station) = ([7; 4], [BEFORE; 7], [BEFORE; 3]);
    let number = unsafe { ffi::physica_sheet_trailer(b.as_ptr(), b.len(), &mut counts, &mut numbers) };
    let got = unsafe { ffi::physica_sheet_station(b.as_ptr(), b.len(), i, &mut station) };
    let [kind, v, f, s] = raw_counts(b);
    let length = unsafe { ffi::physica_sheet_length(kind, v as usize, f as usize, s as usize) };
    parts(number, counts, &numbers, got, &station, length)
}

fn parts(number: u32, counts: [u32; 4], numbers: &[f64], got: usize, station: &[f64], length: usize) -> Answer {
    let mut all: Vec<u64> = counts.iter().map(|&c| c as u64).chain([got as u64, length as u64]).collect();
    all.extend(numbers.iter().chain(station).map(|&x| bits(x)));
    Answer { number, values: [0, 0], numbers: all, work: vec![], out: vec![] }
}

pub fn parts_reference(b: &[u8], i: usize) -> Answer {
    let [kind, v, f, s] = raw_counts(b).map(|c| c as usize);
    let within = known_kind(kind as u32, v, f) && v <= 20_000 && f <= 32_768 && s <= 65_536;
    let length = if within { sheet_length(v, f, s) } else { 0 };
    let [_, v, f, n] = match opened(b) {
        Ok(counts) => counts,
        Err(number) => return parts(number, [7; 4], &[BEFORE; 7], 0, &[BEFORE; 3], length),
    };
    let r = Reader(b);
    let (got, station) = if i < n { (3, r.f64s(24 * v + 36 * f + 24 * i, 3)) } else { (0, vec![BEFORE; 3]) };
    parts(0, raw_counts(b), &r.f64s(b.len() - 64, 7), got, &station, length)
}
