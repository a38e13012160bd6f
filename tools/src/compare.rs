//! compare [--count NUMBER,PRISM,MESH,SHEET[,PROFILE[,TEXT]]] SEED..: asks the library and the reference build the same, and prints a table: call, inputs, differences.
//! NUMBER inputs for each call on numbers and vectors, PRISM prisms, MESH meshes (each for check_mesh and, with a station, for polyhedron), SHEET sheets
//! (each written, then damaged and checked), PROFILE profiles (without it as many as meshes), TEXT shape models (each read, damaged and read; and as many
//! written; without it as many as NUMBER), for each seed. The exit status is 1 if anything differs.
use both::*;
use std::collections::BTreeMap;

mod texts;

struct Random(u64);
impl Random {
    fn next(&mut self) -> u64 {
        self.0 = self.0.wrapping_add(0x9e37_79b9_7f4a_7c15);
        let z = (self.0 ^ (self.0 >> 30)).wrapping_mul(0xbf58_476d_1ce4_e5b9);
        let z = (z ^ (z >> 27)).wrapping_mul(0x94d0_49bb_1331_11eb);
        z ^ (z >> 31)
    }
    fn below(&mut self, n: usize) -> usize {
        (self.next() % n as u64) as usize
    }
    fn chance(&mut self, one_in: usize) -> bool {
        self.below(one_in) == 0
    }
    /// From 0 to 1.
    fn unit(&mut self) -> f64 {
        (self.next() >> 11) as f64 / (1u64 << 53) as f64
    }
    fn between(&mut self, a: f64, b: f64) -> f64 {
        a + (b - a) * self.unit()
    }
    fn pick<T: Copy>(&mut self, xs: &[T]) -> T {
        xs[self.below(xs.len())]
    }
    /// Any magnitude between two powers of ten.
    fn magnitude(&mut self, low: f64, high: f64) -> f64 {
        10f64.powf(self.between(low, high))
    }
    fn signed(&mut self, x: f64) -> f64 {
        if self.chance(2) { -x } else { x }
    }
}

const SPECIAL: [f64; 26] = [
    0.0, -0.0, 1.0, -1.0, 0.5, 2.0, 5e-324, -5e-324, f64::MIN_POSITIVE, 2.225073858507201e-308, f64::MAX, f64::MIN, f64::INFINITY, f64::NEG_INFINITY, f64::NAN,
    f64::EPSILON, 1e9, -1e9, 1000000000.0000001, -1000000000.0000001, 0.9999999999999999, 1.0000000000000002, 1e-6, 9.999999999999999e-7, 1e308, 1e-308,
];

/// An odd number of units of the last place from a power of 4: a root's result is next to a power of 2 there.
fn about_power(r: &mut Random) -> f64 {
    let k = if r.chance(4) { r.below(1000) as i32 - 500 } else { r.below(24) as i32 - 12 };
    let (x, odd) = (4f64.powi(k).to_bits(), 2 * r.below(16) as u64 + 1);
    f64::from_bits(if r.chance(2) { x + odd } else { x - odd })
}

/// A unit vector by cosines and sines: its computed length is some last places from 1.
fn direction(r: &mut Random) -> V3 {
    let (a, b) = (r.between(0.0, std::f64::consts::TAU), r.between(0.0, std::f64::consts::PI));
    let u = [b.sin() * a.cos(), b.sin() * a.sin(), b.cos()];
    if r.chance(4) { [a.cos(), a.sin(), 0.0] } else { u }
}

/// Special numbers, any bits, any magnitude, whole numbers, numbers near each other and near powers of 4.
fn number(r: &mut Random) -> f64 {
    match r.below(32) {
        0 => r.pick(&SPECIAL),
        1 => f64::from_bits(r.next()),
        2 | 3 => { let x = r.magnitude(-300.0, 300.0); r.signed(x) }
        4..=9 => { let x = r.magnitude(-12.0, 9.0); r.signed(x) }
        10..=13 => r.below(9) as f64 - 4.0,
        14 | 15 => { let x = 1.0 + r.between(-1e-9, 1e-9); r.signed(x) }
        16 | 17 => { let x = about_power(r); r.signed(x) }
        _ => r.between(-2.0, 2.0),
    }
}

/// As `number`, most of them above zero.
fn positive(r: &mut Random) -> f64 {
    let x = number(r);
    if r.chance(16) { x } else { x.abs() }
}

/// A subnormal number, or one not far above them: its quarter, or a later one, may lie between two doubles.
fn tiny(r: &mut Random) -> f64 {
    f64::from_bits(r.next() >> (9 + r.below(55)))
}

fn numbers(r: &mut Random, name: &str, n: usize) -> Vec<f64> {
    match name {
        "carlson_rc" | "carlson_rf" | "carlson_rd" | "carlson_rj" => {
            let mut a: Vec<f64> = if r.chance(8) { (0..n).map(|_| tiny(r)).collect() } else { (0..n).map(|_| positive(r)).collect() };
            // the second argument of R_C and the fourth of R_J may be below zero
            if (name == "carlson_rc" || name == "carlson_rj") && r.chance(3) {
                a[n - 1] = -a[n - 1];
            }
            a
        }
        "complete_elliptic" => vec![match r.below(8) { 0 => number(r), 1 => 1.0 - r.magnitude(-17.0, 0.0), _ => r.unit() }],
        "ellipsoid_factors" if r.chance(8) => (0..n).map(|_| tiny(r)).collect(),
        "ring" | "ellipsoid_factors" | "cel" => (0..n).map(|_| positive(r)).collect(),
        _ => {
            let mut a: Vec<f64> = (0..n).map(|_| if r.chance(64) { number(r) } else { let x = r.magnitude(-3.0, 6.0); r.signed(x) }).collect();
            // a vector whose square is near a power of 4
            if r.chance(8) {
                let (at, d, u) = (r.below(n - 2), 2f64.powi(r.below(12) as i32 - 6), direction(r));
                (0..3).for_each(|i| a[at + i] = d * u[i]);
                if r.chance(2) {
                    a[at + 3..n.min(at + 6)].fill(0.0);
                }
            }
            // radii
            for (call, at) in [("sphere", 6), ("cylinder", 9)] {
                if name == call && !r.chance(16) {
                    a[at] = a[at].abs();
                }
            }
            // axes of length zero, and just not
            if name == "cylinder" && r.chance(64) {
                let k = r.pick(&[0.0, -0.0, 1e-170, 1e-160, 5e-324]);
                (6..9).for_each(|i| a[i] = k);
            }
            a
        }
    }
}

/// A square plate across an axis, seen from near it: its longest sides are equal, as rounded.
fn square_plate(r: &mut Random, size: f64) -> Vec<f64> {
    let (axis, lo, thick) = (r.below(3), r.pick(&[0.0, 1.0, -0.3]) * size, size * r.magnitude(-4.5, -0.3));
    let mut a = vec![0.0; 9];
    for i in 0..3 {
        a[i] = lo + if i == axis { thick * (1.0 + r.magnitude(-2.0, 1.5)) } else { r.between(-0.2, 1.2) * size };
        a[3 + i] = lo;
        a[6 + i] = lo + if i == axis { thick } else { size };
    }
    a
}

/// Station, min, max: inside, on faces, edges and corners and their extensions, near, far, needles and plates, equal longest sides, limits.
fn prism(r: &mut Random) -> Vec<f64> {
    let size = r.magnitude(-3.0, 5.0);
    let mut a = vec![0.0; 9];
    for i in 0..3 {
        let side = size * match r.below(6) { 0 => r.magnitude(-4.0, 0.0), 1 => 1.0, _ => r.between(0.2, 2.0) };
        a[3 + i] = if r.chance(3) { 0.0 } else { r.between(-1.0, 1.0) * size };
        a[6 + i] = a[3 + i] + side;
    }
    let distance = r.magnitude(-3.0, 4.0);
    for i in 0..3 {
        let (lo, hi) = (a[3 + i], a[6 + i]);
        a[i] = match r.below(9) {
            0 => lo,
            1 => hi,
            2 => (lo + hi) * 0.5,
            3 => r.between(lo, hi),
            4 => hi + distance * (hi - lo),
            5 => lo - distance * size,
            _ => r.between(-1.0, 1.0) * distance * size,
        };
    }
    match r.below(50) {
        // one number of any kind
        0 => { let i = r.below(9); a[i] = number(r); }
        // a thin plate seen from close by
        1 => a = vec![0.0, 0.0, r.magnitude(-3.0, 1.0), -1e4, -1e4, -r.magnitude(-6.0, -2.0), 1e4, 1e4, 0.0],
        // sides at the limit
        2 => { let i = r.below(3); a[6 + i] = a[3 + i] + r.pick(&[1e-6, 9.99e-7, 1.01e-6, 0.0]); }
        3..=7 => a = square_plate(r, size),
        _ => {}
    }
    a
}

// ---- meshes

fn flat(points: &[V3]) -> Vec<f64> {
    points.concat()
}

/// n corners about the z axis and two tips.
fn bipyramid(n: usize) -> (Vec<V3>, Vec<[u32; 3]>) {
    let mut v: Vec<V3> = (0..n).map(|k| { let a = std::f64::consts::TAU * k as f64 / n as f64; [a.cos(), a.sin(), 0.0] }).collect();
    v.extend([[0.0, 0.0, 1.0], [0.0, 0.0, -1.0]]);
    let (m, top, bottom) = (n as u32, n as u32, n as u32 + 1);
    let f = (0..m).flat_map(|k| [[k, (k + 1) % m, top], [(k + 1) % m, k, bottom]]).collect();
    (v, f)
}

fn cube() -> (Vec<V3>, Vec<[u32; 3]>) {
    let v = (0..8).map(|i| [(i & 1) as f64, (i >> 1 & 1) as f64, (i >> 2) as f64]).collect();
    let quads = [[0, 2, 3, 1], [4, 5, 7, 6], [0, 1, 5, 4], [2, 6, 7, 3], [0, 4, 6, 2], [1, 3, 7, 5]];
    (v, quads.iter().flat_map(|q: &[u32; 4]| [[q[0], q[1], q[2]], [q[0], q[2], q[3]]]).collect())
}

/// A sphere of 2m(n - 1) faces, smooth or with each vertex moved along its radius.
fn globe(r: &mut Random, n: usize, m: usize) -> (Vec<V3>, Vec<[u32; 3]>) {
    use std::f64::consts::{PI, TAU};
    let mut v: Vec<V3> = vec![[0.0, 0.0, 1.0]];
    for (i, j) in (1..n).flat_map(|i| (0..m).map(move |j| (i, j))) {
        let (t, a) = (PI * i as f64 / n as f64, TAU * j as f64 / m as f64);
        v.push([t.sin() * a.cos(), t.sin() * a.sin(), t.cos()]);
    }
    v.push([0.0, 0.0, -1.0]);
    if r.chance(2) {
        v.iter_mut().for_each(|p| { let k = r.between(0.8, 1.2); p.iter_mut().for_each(|x| *x *= k) });
    }
    let at = |i: usize, j: usize| (1 + (i - 1) * m + j % m) as u32;
    let last = v.len() as u32 - 1;
    let mut f = vec![];
    for j in 0..m {
        f.push([0, at(1, j), at(1, j + 1)]);
        f.extend((1..n - 1).flat_map(|i| [[at(i, j), at(i + 1, j), at(i + 1, j + 1)], [at(i, j), at(i + 1, j + 1), at(i, j + 1)]]));
        f.push([at(n - 1, j + 1), at(n - 1, j), last]);
    }
    (v, f)
}

/// A closed body of 4 to some 200 faces, an even number as all closed ones have: a simple one with faces split, stretched, moved and numbered anew.
fn closed(r: &mut Random) -> (Vec<V3>, Vec<[u32; 3]>) {
    let (mut v, mut f) = match r.below(6) {
        0 => (vec![[0.0; 3], [1.0, 0.0, 0.0], [0.0, 1.0, 0.0], [0.0, 0.0, 1.0]], vec![[0, 2, 1], [0, 1, 3], [0, 3, 2], [1, 2, 3]]),
        1 => cube(),
        2 => { let n = r.below(6) + 3; bipyramid(n) }
        3 => { let n = if r.chance(3) { r.below(3) + 64 } else { r.below(60) + 10 }; bipyramid(n) }
        4 => bipyramid(4),
        _ => { let (n, m) = (3 + r.below(6), 3 + r.below(10)); globe(r, n, m) }
    };
    for _ in 0..r.below(12) {
        // a face becomes three about a new vertex
        let k = r.below(f.len());
        let [a, b, c] = f[k];
        let p: V3 = core::array::from_fn(|i| (v[a as usize][i] + v[b as usize][i] + v[c as usize][i]) / 3.0 + if r.chance(2) { 0.0 } else { r.between(-0.05, 0.1) });
        let n = v.len() as u32;
        v.push(p);
        f[k] = [a, b, n];
        f.extend([[b, c, n], [c, a, n]]);
    }
    if r.chance(4) {
        v.insert(0, [r.between(-9.0, 9.0), 0.0, 0.0]);
        f.iter_mut().flatten().for_each(|i| *i += 1);
    }
    if r.chance(2) {
        let (s, t): (V3, V3) = (core::array::from_fn(|_| r.magnitude(-2.0, 3.0)), core::array::from_fn(|_| r.between(-3.0, 3.0)));
        v.iter_mut().for_each(|p| *p = core::array::from_fn(|i| p[i] * s[i] + t[i]));
    }
    if r.chance(2) {
        let mut to: Vec<u32> = (0..v.len() as u32).collect();
        (1..to.len()).rev().for_each(|i| to.swap(i, r.below(i + 1)));
        let mut w = v.clone();
        (0..v.len()).for_each(|i| w[to[i] as usize] = v[i]);
        f.iter_mut().flatten().for_each(|i| *i = to[*i as usize]);
        v = w;
        (1..f.len()).rev().for_each(|i| f.swap(i, r.below(i + 1)));
        f.iter_mut().for_each(|g| g.rotate_left(r.below(3)));
    }
    (v, f)
}

fn mesh(r: &mut Random) -> Mesh {
    let (v, f) = closed(r);
    let (mut verts, mut faces) = (flat(&v), f.concat());
    let mut room = faces.len() + r.below(4);
    let k = r.below(faces.len() / 3);
    match r.below(24) {
        0 => { faces.drain(3 * k..3 * k + 3); }
        1 => faces.swap(3 * k, 3 * k + 1),
        2 => { let g = faces[3 * k..3 * k + 3].to_vec(); faces.extend(g); room += 3; }
        3 => { let j = r.below(3); faces[3 * k + j] = r.below(v.len() + 2) as u32; }
        4 => faces.chunks_mut(3).for_each(|g| g.swap(0, 1)),
        5 => { let (a, b) = (r.below(v.len()), r.below(v.len())); (0..3).for_each(|i| verts[3 * a + i] = verts[3 * b + i]); }
        6 => { let i = r.below(verts.len()); verts[i] = number(r); }
        7 => { verts.pop(); }
        8 => { faces.pop(); }
        9 => room = faces.len().saturating_sub(1 + r.below(3)),
        10 => { faces.clear(); }
        11 => { let axis = r.below(3); (0..v.len()).for_each(|i| verts[3 * i + axis] = 0.0); }
        12 => { let i = r.below(faces.len()); faces[i] = r.next() as u32; }
        _ => {}
    }
    Mesh { verts, faces, room }
}

/// A station whose squared distance from a vertex, as it is computed, is an odd number of units of the last place from a power of 4; any near one if none is found.
fn at_power(r: &mut Random, v: V3) -> V3 {
    let size = v.iter().fold(0.0, |a: f64, x| a.max(x.abs())).clamp(1e-3, 1e8);
    let d = 2f64.powi(size.log2() as i32 + r.below(8) as i32 - 2);
    let mut p = v;
    for _ in 0..40 {
        // a long side and one whose square is a unit of the last place; else any direction
        let u = if r.chance(4) { let mut u = [1.0 + r.below(3) as f64 * f64::EPSILON, 0.0, 2f64.powi(-26)]; u.rotate_left(r.below(3)); u } else { direction(r) };
        p = core::array::from_fn(|i| v[i] + d * u[i]);
        let square = { let r: V3 = core::array::from_fn(|i| v[i] - p[i]); r[0] * r[0] + r[1] * r[1] + r[2] * r[2] };
        let off = square.to_bits().wrapping_sub((d * d).to_bits()) as i64;
        if off % 2 != 0 && off.unsigned_abs() < 32 {
            break;
        }
    }
    p
}

/// Inside, on vertices, edges and faces, in their planes, near and far, about the hand-over, a million sizes away, at distances near powers of 2.
fn station(r: &mut Random, verts: &[f64], faces: &[u32]) -> V3 {
    let v = points(verts);
    if v.is_empty() {
        return [number(r), 0.0, 1.0];
    }
    let of = |i: u32| v.get(i as usize).copied().unwrap_or(v[0]);
    let n = v.len() as f64;
    let centre: V3 = core::array::from_fn(|i| v.iter().map(|p| p[i]).sum::<f64>() / n);
    let size = v.iter().flat_map(|p| (0..3).map(|i| (p[i] - centre[i]).abs()).collect::<Vec<_>>()).fold(0.0, f64::max);
    let (a, b, c) = match faces.len() {
        0..=2 => (v[0], v[0], v[0]),
        m => { let k = r.below(m / 3); (of(faces[3 * k]), of(faces[3 * k + 1]), of(faces[3 * k + 2])) }
    };
    match r.below(16) {
        // the vertex of the most edges, where there may be 65
        0 if v.len() > 60 && r.chance(2) => {
            let mut uses = vec![0; v.len()];
            faces.iter().for_each(|&i| if let Some(n) = uses.get_mut(i as usize) { *n += 1 });
            (0..v.len()).max_by_key(|&i| uses[i]).map_or(a, |i| v[i])
        }
        0 => a,
        1 => { let t = r.pick(&[0.5, 0.25, 2.0, -1.0]); core::array::from_fn(|i| a[i] + t * (b[i] - a[i])) }
        2 => core::array::from_fn(|i| a[i] * 0.25 + b[i] * 0.25 + c[i] * 0.5),
        // in the face's plane beside it
        12 => { let [s, t] = r.pick(&[[-1.5, 0.5], [1.0, 1.0], [-0.5, -0.25], [3.0, 0.0]]); core::array::from_fn(|i| a[i] + s * (b[i] - a[i]) + t * (c[i] - a[i])) }
        13 => { let (d, u) = (size * r.magnitude(5.5, 6.5), direction(r)); core::array::from_fn(|i| centre[i] + d * u[i]) }
        14 | 15 => at_power(r, a),
        3 => centre,
        4 => { let i = r.below(3); let mut p = centre; p[i] = number(r); p }
        5 | 6 => { let d = size * r.between(4.0, 11.0); let u: V3 = core::array::from_fn(|_| r.between(-1.0, 1.0)); core::array::from_fn(|i| centre[i] + d * u[i]) }
        _ => { let d = size * r.magnitude(-3.0, 3.0); core::array::from_fn(|i| centre[i] + d * r.between(-1.0, 1.0)) }
    }
}

/// The pyramid over a regular polygon whose base is a fan about its middle, vertex 0: n edges meet there, in one plane unless tilted, and n at the top.
fn fan(n: usize, tilt: f64) -> (Vec<V3>, Vec<[u32; 3]>) {
    let mut v: Vec<V3> = vec![[0.0, 0.0, -tilt]];
    v.extend((0..n).map(|k| { let a = std::f64::consts::TAU * k as f64 / n as f64; [a.cos(), a.sin(), 0.0] }));
    v.push([0.1, 0.2, 1.5]);
    let (m, top) = (n as u32, n as u32 + 1);
    let f = (0..m).flat_map(|k| { let (a, b) = (1 + k, 1 + (k + 1) % m); [[0, b, a], [a, b, top]] }).collect();
    (v, f)
}

/// A closed body, or one in six a fan with 63 to 66 edges; and whether it is a fan.
fn body(r: &mut Random) -> (Mesh, bool) {
    let fans = r.chance(6);
    let (v, f) = if fans { fan(r.pick(&[63, 64, 65, 65, 66]), r.pick(&[0.0, 0.25])) } else { closed(r) };
    let faces = f.concat();
    (Mesh { verts: flat(&v), room: faces.len() + r.below(3), faces }, fans)
}

/// One or two of the stations go to a fan's middle or top.
fn into_fan(r: &mut Random, m: &Mesh, stations: &mut [f64]) {
    for _ in 0..if stations.is_empty() { 0 } else { 1 + r.below(2) } {
        let (at, vertex) = (3 * r.below(stations.len() / 3), r.pick(&[0, m.verts.len() - 3]));
        stations[at..at + 3].copy_from_slice(&m.verts[vertex..vertex + 3]);
    }
}

/// How many stations: none, one, about a block, about two, any.
fn count(r: &mut Random) -> usize {
    match r.below(8) {
        0 => r.pick(&[0, 1]),
        1 | 2 => r.pick(&[7, 8, 9]),
        3 => r.pick(&[15, 16, 17]),
        _ => r.below(28),
    }
}

/// Stations of one kind, of two or of all kinds: near, far (beyond five radii), either, anywhere.
fn stations(r: &mut Random, m: &Mesh, n: usize) -> Vec<f64> {
    let kinds = r.below(5);
    let mut all = Vec::new();
    for _ in 0..n {
        let p = station(r, &m.verts, &m.faces);
        let size = m.verts.iter().fold(1e-3, |a: f64, x| a.max(if within(*x) { x.abs() } else { 0.0 })).min(1e7);
        all.extend(match if kinds == 2 { r.below(2) } else { kinds } {
            0 => core::array::from_fn(|_| 1.2 * size * r.between(-1.0, 1.0)),
            1 => { let d = size * r.between(10.0, 40.0); let u: V3 = core::array::from_fn(|_| r.between(0.6, 1.0)); core::array::from_fn(|i| d * r.signed(u[i])) }
            _ => p,
        });
    }
    all
}

// ---- profiles

/// Bodies of every kind, with stations of every kind; fans; lists of wrong lengths.
fn profile(r: &mut Random) -> Profile {
    let (mesh, fans) = if r.chance(4) { (mesh(r), false) } else { body(r) };
    let n = count(r);
    let mut stations = stations(r, &mesh, n);
    if fans {
        into_fan(r, &mesh, &mut stations);
    }
    let mut q = Profile { mesh, room: 13 * n + r.pick(&[0, 0, 1, 12, 13, 14, 27]), stations };
    // one fault now and then, or several
    for _ in 0..r.pick(&[0, 0, 1, 6]) {
        match r.below(16) {
            0 => { q.stations.pop(); }
            1 => q.room = (13 * n).saturating_sub(r.pick(&[1, 12, 13])),
            2 => q.room = 12 * n,
            3 => q.mesh.room = q.mesh.faces.len().saturating_sub(1 + r.below(3)),
            4 | 5 => { let x = number(r); q.stations.last_mut().map(|y| *y = x); }
            6 if !q.stations.is_empty() => { let i = r.below(q.stations.len()); q.stations[i] = r.pick(&[f64::NAN, 2e9, f64::NEG_INFINITY, 1000000000.0000001]); }
            _ => {}
        }
    }
    q
}

/// More than 64 edges through the station at each place of a block, the last included, and of the next block.
fn refused_stations(r: &mut Random, table: &mut Table) {
    for n in [64, 65] {
        for (at, tilt) in (0..17).flat_map(|at| [(at, 0.0), (at, 0.25)]) {
            let (v, f) = fan(n, tilt);
            let faces = f.concat();
            let mesh = Mesh { verts: flat(&v), room: faces.len(), faces };
            let count = if at < 8 { 8 } else { 17 };
            let mut stations: Vec<f64> = (0..count).flat_map(|_| { let d = r.pick(&[0.7, 3.0, 40.0]); [d * r.between(0.3, 1.0), d * r.between(0.3, 1.0), d] }).collect();
            stations[3 * at..3 * at + 3].copy_from_slice(&if r.chance(2) { v[0] } else { v[n + 1] });
            let room = sheet_length(v.len(), f.len(), count) + r.below(9);
            let s = Sheet { kind: 1, mesh: mesh.clone(), magnetisation: [1.0, 2.0, -2.0], ambient: [0.0, 3.0, 4.0], stations: stations.clone(), room };
            table.add("write_sheet", &write_here(&s), &write_reference(&s), || format!("{s:?}"));
            // the rows right; then one wrong before, at or after the station
            let mut b = with_rows(&s);
            check(table, &b, at);
            wrong_row(r, &mut b, count);
            check(table, &b, at);
            let q = Profile { mesh, room: 13 * count + r.below(14), stations };
            table.add("profile", &profile_here(&q), &profile_reference(&q), || format!("{q:?}"));
        }
    }
}

// ---- sheets

fn check(table: &mut Table, b: &[u8], i: usize) {
    table.add("check_sheet, sheet_rows, sheet_row", &check_here(b, i), &check_reference(b, i), || format!("{i} {b:?}"));
    table.add("sheet_trailer, sheet_station, sheet_length", &parts_here(b, i), &parts_reference(b, i), || format!("{i} {b:?}"));
}

/// The sheet with the row of each station, zeros where there is none: made also where the writer refuses it.
fn with_rows(s: &Sheet) -> Vec<u8> {
    // the reference has no field of a mesh that it refuses
    let solid = s.kind == 2 || surface(&s.mesh.verts, &s.mesh.faces).is_ok();
    let rows: Vec<[f64; 8]> = points(&s.stations).into_iter().map(|p| if solid { row(s, p).unwrap_or([0.0; 8]) } else { [0.0; 8] }).collect();
    sheet_bytes(s, &rows, volume(s))
}

fn volume(s: &Sheet) -> f64 {
    let v = &s.mesh.verts;
    if s.kind == 2 { (v[3] - v[0]) * (v[4] - v[1]) * (v[5] - v[2]) } else { surface(v, &s.mesh.faces).unwrap_or(0.0) }
}

/// One bit of one of a sheet's rows, of which it has n.
fn wrong_row(r: &mut Random, b: &mut [u8], n: usize) {
    if n > 0 {
        let at = b.len() - 80 - 64 * n + r.below(64 * n);
        b[at] ^= 1 << r.below(8);
    }
}

/// Up to 20 stations with their rows, whatever the writer says of them, and up to two rows wrong: 11, 13 and 20 at any place of a block.
fn forced_rows(r: &mut Random) -> Vec<u8> {
    let (mesh, fans) = body(r);
    let n = 1 + r.below(20);
    let mut stations = stations(r, &mesh, n);
    stations.iter_mut().filter(|x| !within(**x)).for_each(|x| *x = 3.5);
    if fans && r.chance(2) {
        into_fan(r, &mesh, &mut stations);
    }
    let s = Sheet { kind: 1, mesh, magnetisation: [1.0, 2.0, -2.0], ambient: [0.0, 3.0, 4.0], stations, room: 0 };
    let mut b = with_rows(&s);
    for _ in 0..r.below(3) {
        wrong_row(r, &mut b, n);
    }
    b
}

fn sheet(r: &mut Random) -> Sheet {
    let (kind, (body, fans)) = if r.chance(3) {
        let a = prism(r);
        (2, (Mesh { verts: a[3..].to_vec(), faces: vec![], room: r.below(3) }, false))
    } else {
        (1, body(r))
    };
    let mut stations = if kind == 1 && r.chance(4) {
        // about one block, two or three
        let n = 1 + r.below(20);
        stations(r, &body, n)
    } else {
        let mut few = Vec::new();
        for _ in 0..r.pick(&[0, 1, 1, 2, 3]) {
            let far = r.chance(3);
            let p = station(r, &body.verts, &body.faces);
            // far from what makes a row infinite, most of the time
            few.extend(p.map(|x| if far || r.chance(2) { x } else { x * 1.37 + 0.011 }));
        }
        few
    };
    if fans && r.chance(2) {
        into_fan(r, &body, &mut stations);
    }
    let mut vector = || -> V3 { core::array::from_fn(|_| if r.chance(24) { number(r) } else { r.between(-5.0, 5.0) * r.pick(&[1.0, 1e-5, 1e4]) }) };
    let (magnetisation, ambient) = (vector(), vector());
    let room = sheet_length(body.verts.len() / 3, body.faces.len() / 3, stations.len() / 3) + r.below(9);
    let mut s = Sheet { kind, mesh: body, magnetisation, ambient, stations, room };
    match r.below(24) {
        0 => s.kind = r.pick(&[0, 1, 2, 3, u32::MAX]),
        1 => { s.stations.pop(); }
        2 => s.room = s.room.saturating_sub(9 + r.below(20)),
        3 => { s.mesh = mesh(r); s.room += 24 * 99 + 36 * 200; s.kind = 1; }
        4 => { if let Some(x) = s.stations.last_mut() { *x = number(r); } }
        5 => s.mesh.room = s.mesh.room.saturating_sub(1 + r.below(4)),
        _ => {}
    }
    s
}

/// A change in some part of a sheet, or none.
fn damaged(r: &mut Random, sheet: &[u8]) -> Vec<u8> {
    let mut b = sheet.to_vec();
    if b.len() < 80 {
        return b;
    }
    let t = b.len() - 80;
    let u32_at = |b: &[u8], i: usize| u32::from_le_bytes(b[i..i + 4].try_into().unwrap()) as usize;
    let (v, f, s) = (u32_at(&b, t + 4), u32_at(&b, t + 8), u32_at(&b, t + 12));
    let (faces, order, mates, stations) = (24 * v, 24 * v + 12 * f, 24 * v + 24 * f, 24 * v + 36 * f);
    let rows = stations + 24 * s;
    // one bit, or one number, between two places
    let hit = |r: &mut Random, from: usize, to: usize, width: usize, b: &mut Vec<u8>| {
        if from + width > to || to > b.len() {
            return;
        }
        let at = from + width * r.below((to - from) / width);
        match r.below(3) {
            0 => b[at + r.below(width)] ^= 1 << r.below(8),
            1 => { let x = if width == 4 { (r.below(3 * f + 2) as u32).to_le_bytes().to_vec() } else { number(r).to_bits().to_le_bytes().to_vec() }; b[at..at + width].copy_from_slice(&x); }
            _ => { let other = from + width * r.below((to - from) / width); let x = b[other..other + width].to_vec(); b[at..at + width].copy_from_slice(&x); }
        }
    };
    match r.below(20) {
        0 => { let n = b.len(); let i = r.below(n); b[i] ^= 1 << r.below(8); }
        1 => hit(r, 0, faces, 8, &mut b),
        2 => hit(r, faces, order, 4, &mut b),
        3 => hit(r, order, mates, 4, &mut b),
        4 => hit(r, mates, stations, 4, &mut b),
        5 | 6 => hit(r, stations, rows, 8, &mut b),
        7 | 8 => hit(r, rows, t, 8, &mut b),
        9 => hit(r, t, t + 16, 4, &mut b),
        10 => hit(r, t + 16, t + 64, 8, &mut b),
        11 => hit(r, t + 64, t + 72, 8, &mut b),
        12 => hit(r, t + 72, t + 80, 8, &mut b),
        13 => { let n = r.below(b.len() + 1); b.truncate(n); }
        14 => { let n = r.below(99); b.extend(vec![0; n]); }
        // two entries of the order list, or of the mates, exchanged
        15 if f > 0 => { let (i, j) = (4 * r.below(3 * f), 4 * r.below(3 * f)); let o = r.pick(&[order, mates]); (0..4).for_each(|k| b.swap(o + i + k, o + j + k)); }
        // a station at a vertex
        16 if s > 0 && v > 0 => { let (i, j) = (24 * r.below(v), stations + 24 * r.below(s)); let p = b[i..i + 24].to_vec(); b[j..j + 24].copy_from_slice(&p); }
        // a face's corners exchanged, with the order list and mates of the new faces
        17 if f > 0 => {
            let k = r.below(f);
            let mut list: Vec<u32> = b[faces..order].chunks_exact(4).map(|x| u32::from_le_bytes(x.try_into().unwrap())).collect();
            if r.chance(2) { list.chunks_mut(3).for_each(|g| g.swap(0, 1)) } else { list.swap(3 * k, 3 * k + 1) }
            let lists = [list.clone(), order_list(&list), both::mates(&list)].concat();
            lists.iter().enumerate().for_each(|(i, x)| b[faces + 4 * i..faces + 4 * i + 4].copy_from_slice(&x.to_le_bytes()));
        }
        _ => {}
    }
    b
}

/// Sheets that the writer refuses, made all the same: a fan of 65 edges, a plate that needs a 33rd bisection, flat and inverted bodies, sides below the limit.
fn forced(r: &mut Random) -> Vec<u8> {
    let (kind, verts, faces, p) = match r.below(5) {
        0 => { let (v, f) = bipyramid(64 + r.below(3)); let p = v[v.len() - 2]; (1, flat(&v), f.concat(), p) }
        1 => (2, vec![-1e4, -1e4, -1e-3, 1e4, 1e4, 0.0], vec![], [0.0, 0.0, 0.1]),
        2 => { let (mut v, f) = cube(); v.iter_mut().for_each(|q| q[2] = 0.0); (1, flat(&v), f.concat(), [9.0; 3]) }
        3 => { let (v, mut f) = closed(r); f.iter_mut().for_each(|g| g.swap(0, 1)); (1, flat(&v), f.concat(), [9.0; 3]) }
        _ => (2, vec![0.0, 0.0, 0.0, 1.0, 1.0, r.pick(&[1e-6, 9e-7, 0.0, -1.0])], vec![], [9.0; 3]),
    };
    let s = Sheet { kind, mesh: Mesh { verts, faces, room: 0 }, magnetisation: [1.0, 2.0, -2.0], ambient: [0.0, 3.0, 4.0], stations: p.to_vec(), room: 0 };
    sheet_bytes(&s, &[[0.0; 8]], volume(&s))
}

// ---- the table

#[derive(Default)]
struct Tally {
    inputs: u64,
    differ: u64,
    numbers: BTreeMap<u32, u64>,
    nan: u64,
}

struct Table(Vec<(String, Tally)>);
impl Table {
    fn add(&mut self, call: &str, here: &Answer, reference: &Answer, input: impl Fn() -> String) {
        let at = match self.0.iter().position(|(n, _)| n == call) {
            Some(at) => at,
            None => { self.0.push((call.into(), Tally::default())); self.0.len() - 1 }
        };
        let t = &mut self.0[at].1;
        t.inputs += 1;
        *t.numbers.entry(reference.number).or_default() += 1;
        t.nan += (reference.number == 0 && reference.numbers.iter().any(|&x| !f64::from_bits(x).is_finite())) as u64;
        if here != reference {
            t.differ += 1;
            if t.differ <= 3 {
                println!("DIFFER {call} {}\n  here      {here:x?}\n  reference {reference:x?}", input());
            }
        }
    }
}

fn hex(a: &[f64]) -> String {
    a.iter().map(|x| format!("{:016x}", x.to_bits())).collect::<Vec<_>>().join(" ")
}

/// Counts at their limits and one over.
fn limits(table: &mut Table) {
    let t = [0, 2, 1, 0, 1, 3, 0, 3, 2, 1, 2, 3];
    let corner = [0.0, 0.0, 0.0, 1.0, 0.0, 0.0, 0.0, 1.0, 0.0, 0.0, 0.0, 1.0];
    for (v, f, n) in [(20_000, 4, 0), (20_001, 4, 0), (4, 32_768, 0), (4, 32_769, 0), (4, 4, 65_536), (4, 4, 65_537)] {
        let mut verts = corner.to_vec();
        verts.resize(3 * v, 0.5);
        let faces: Vec<u32> = t.iter().copied().cycle().take(3 * f).collect();
        let m = Mesh { room: faces.len(), verts, faces };
        table.add("check_mesh", &mesh_here(&m), &mesh_reference(&m), || format!("{v} {f}"));
        table.add("polyhedron", &polyhedron_here([9.0; 3], &m), &polyhedron_reference([9.0; 3], &m), || format!("{v} {f}"));
        // without room, with a last station that is refused by 3, and all of it
        for (room, last) in [(0, 2.0), (13 * n, 2e9), (13 * n, 2.0)] {
            let mut stations: Vec<f64> = (0..3 * n).map(|i| 1.0 + (i % 1000) as f64 / 1000.0).collect();
            stations.last_mut().map(|x| *x = last);
            let q = Profile { mesh: m.clone(), stations, room };
            table.add("profile", &profile_here(&q), &profile_reference(&q), || format!("{v} {f} {n} {room} {last}"));
        }
        for room in [0, sheet_length(v, f, n)] {
            // a station that is refused by 3 ends the work early
            let mut stations = vec![2.0; 3 * n];
            stations.first_mut().map(|x| *x = 2e9);
            let s = Sheet { kind: 1, mesh: m.clone(), magnetisation: [1.0; 3], ambient: [1.0; 3], stations, room };
            table.add("write_sheet", &write_here(&s), &write_reference(&s), || format!("{v} {f} {n} {room}"));
            let b = sheet_bytes(&s, &vec![[0.0; 8]; n], 1.0 / 6.0);
            check(table, &b, n);
        }
    }
}

fn run(seed: u64, counts: &[usize], table: &mut Table) {
    let mut r = Random(seed);
    for order in (0..=40).chain([255, 65536, u32::MAX]) {
        table.add("gauss_legendre", &rule_here(order), &rule_reference(order), || order.to_string());
    }
    for call in &CALLS {
        for _ in 0..if call.name == "prism" { counts[1] } else { counts[0] } {
            let a = if call.name == "prism" { prism(&mut r) } else { numbers(&mut r, call.name, call.takes) };
            table.add(call.name, &(call.here)(&a), &(call.reference)(&a), || hex(&a));
        }
    }
    for _ in 0..counts[2] {
        let m = mesh(&mut r);
        table.add("check_mesh", &mesh_here(&m), &mesh_reference(&m), || format!("{m:?}"));
        let p = station(&mut r, &m.verts, &m.faces);
        table.add("polyhedron", &polyhedron_here(p, &m), &polyhedron_reference(p, &m), || format!("{p:?} {m:?}"));
    }
    let mut last: Vec<u8> = vec![];
    for _ in 0..counts[3] {
        let s = sheet(&mut r);
        let (here, reference) = (write_here(&s), write_reference(&s));
        table.add("write_sheet", &here, &reference, || format!("{s:?}"));
        if reference.number == 0 {
            last = reference.out[..reference.numbers[0] as usize].to_vec();
        }
        let b = match r.below(30) { 0 => forced(&mut r), 1..=3 => forced_rows(&mut r), _ => damaged(&mut r, &last) };
        let i = if r.chance(2) { r.below(5) } else { r.below(24) };
        check(table, &b, i);
    }
    for _ in 0..counts[4] {
        let q = profile(&mut r);
        table.add("profile", &profile_here(&q), &profile_reference(&q), || format!("{q:?}"));
    }
    refused_stations(&mut r, table);
    limits(table);
    // numbers of its own, so that the texts of a seed hang on no other count
    texts::run(&mut Random(seed), counts[5], table);
}

fn main() {
    let mut words: Vec<String> = std::env::args().skip(1).collect();
    let mut counts = vec![10_000, 10_000, 1_000, 1_000];
    let usage = "--count NUMBER,PRISM,MESH,SHEET[,PROFILE[,TEXT]]";
    if words.first().map(String::as_str) == Some("--count") {
        counts = words[1].split(',').map(|w| w.parse().expect(usage)).collect();
        assert!((4..=6).contains(&counts.len()), "{usage}");
        words.drain(..2);
    }
    if counts.len() == 4 {
        counts.push(counts[2]);
    }
    if counts.len() == 5 {
        counts.push(counts[0]);
    }
    start();
    let mut table = Table(vec![]);
    let seeds: Vec<u64> = if words.is_empty() { vec![1] } else { words.iter().map(|w| w.parse().expect("a seed is a whole number")).collect() };
    for &seed in &seeds {
        run(seed, &counts, &mut table);
    }
    println!("seeds {seeds:?}\n\n| call | inputs | differ | not finite | refused |\n|---|---|---|---|---|");
    for (call, t) in &table.0 {
        let refused: Vec<String> = t.numbers.iter().filter(|(n, _)| **n != 0).map(|(n, c)| format!("{n}: {c}")).collect();
        println!("| {call} | {} | {} | {} | {} |", t.inputs, t.differ, t.nan, refused.join(", "));
    }
    std::process::exit(table.0.iter().any(|(_, t)| t.differ != 0) as i32);
}
