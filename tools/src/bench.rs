//! bench [TURNS] [--only GROUP,..] [--rows TEXT] [FILE.obj ..]: times each call here and in the reference build, on the same inputs in one program, and prints a table for each group: call,
//! inputs, the time of a call on both sides, their ratio. A time is the best of TURNS turns (default 30) or more, taken in alternation; what is short has more turns, what is slow fewer (`Bench::best`).
//! With files the bodies are theirs, and the groups those over bodies.
use both::*;
use geopotential::{bodies, gauss_legendre, special};
use magnetics::anomaly;
use physica::ffi;
use std::cell::RefCell;
use std::hint::black_box;
use std::time::Instant;

struct Random(u64);
impl Random {
    /// Each group has its own, so that it has the same inputs with other groups and alone.
    fn new() -> Random {
        Random(0x2545_f491_4f6c_dd1d)
    }
    fn unit(&mut self) -> f64 {
        self.0 ^= self.0 << 13;
        self.0 ^= self.0 >> 7;
        self.0 ^= self.0 << 17;
        (self.0 >> 11) as f64 / (1u64 << 53) as f64
    }
    fn between(&mut self, a: f64, b: f64) -> f64 {
        a + (b - a) * self.unit()
    }
    fn list(&mut self, n: usize, a: f64, b: f64) -> Vec<f64> {
        (0..n).map(|_| self.between(a, b)).collect()
    }
}

/// A turn of a part lasts about this long or more: short parts are repeated.
const TURN: f64 = 2e-3;
/// A row goes on for this many seconds at least: on a machine that is shared, other work slows a processor for tenths of a second on end, and a shorter row may lie within them.
const LEAST: f64 = 1.0;
/// After this many seconds no further turn begins, but for the first three.
const SECONDS: f64 = 5.0;

struct Bench {
    turns: usize,
    /// What the inputs of a row must have in them.
    rows: String,
}

impl Bench {
    fn wanted(&self, inputs: &str) -> bool {
        inputs.contains(&self.rows)
    }

    /// The best time of each part, in seconds, taken in alternation.
    fn best<const N: usize>(&self, parts: [&dyn Fn(); N]) -> [f64; N] {
        let start = Instant::now();
        let round = |f: &dyn Fn(), reps: usize| {
            let t = Instant::now();
            (0..reps).for_each(|_| f());
            t.elapsed().as_secs_f64() / reps as f64
        };
        // a short part's very first call says little of how long it takes
        let first = parts.map(|f| { let t = round(f, 1); if t < TURN { round(f, 1) } else { t } });
        let reps = first.map(|t| (TURN / t.max(1e-7)).ceil() as usize);
        // the calls that tell how long the parts are count as a turn only where all are long enough for one
        let long = reps == [1; N];
        let mut best = if long { first } else { [f64::MAX; N] };
        for turn in long as usize.. {
            let gone = start.elapsed().as_secs_f64();
            if turn >= 3 && (gone > SECONDS || (turn >= self.turns && gone > LEAST)) {
                break;
            }
            for k in 0..N {
                best[k] = best[k].min(round(parts[k], reps[k]));
            }
        }
        best
    }

    /// Both sides on every input.
    fn row<I>(&self, call: &str, kind: &str, inputs: &[I], here: impl Fn(&I), reference: impl Fn(&I)) {
        if !self.wanted(kind) {
            return;
        }
        // a call through a pointer for each input, lest one side be compiled into its loop
        let all = |f: &dyn Fn(&I)| black_box(inputs).iter().for_each(|i| f(i));
        let [a, b] = self.best([&|| all(&here), &|| all(&reference)]);
        line(call, kind, a / inputs.len() as f64, b / inputs.len() as f64);
    }
}

fn head(group: &str, second: &str) {
    println!("\n{group}\n\n| call | inputs | this library | {second} | ratio |\n|---|---|---|---|---|");
}

fn line(call: &str, inputs: &str, here: f64, reference: f64) {
    let ratio = here / reference;
    let ratio = if ratio < 0.1 { format!("{ratio:.4}") } else { format!("{ratio:.3}") };
    println!("| {call} | {inputs} | {} | {} | {ratio} |", time(here), time(reference));
}

fn time(seconds: f64) -> String {
    let t = seconds * 1e9;
    if t < 1e4 { format!("{t:.1} ns") } else if t < 1e7 { format!("{:.1} µs", t / 1e3) } else { format!("{:.1} ms", t / 1e6) }
}

// ---- bodies

/// A mesh in the forms that both sides take, and what its stations are counted from.
struct Body {
    name: String,
    mesh: Mesh,
    verts: Vec<V3>,
    faces: Vec<[usize; 3]>,
    centroid: V3,
    radius: f64,
}

fn distance(a: V3, b: V3) -> f64 {
    (0..3).map(|i| (a[i] - b[i]) * (a[i] - b[i])).sum::<f64>().sqrt()
}

impl Body {
    fn new(kind: &str, mesh: Mesh) -> Body {
        let (verts, faces) = (points(&mesh.verts), corners(&mesh.faces));
        let mut used = vec![false; verts.len()];
        faces.iter().flatten().for_each(|&i| used[i] = true);
        let of: Vec<V3> = (0..verts.len()).filter(|&i| used[i]).map(|i| verts[i]).collect();
        let centroid = core::array::from_fn(|i| of.iter().map(|v| v[i]).sum::<f64>() / of.len() as f64);
        let radius = of.iter().map(|v| distance(*v, centroid)).fold(0.0, f64::max);
        Body { name: format!("{} faces, {kind}", faces.len()), mesh, verts, faces, centroid, radius }
    }
    fn triangles(&self) -> &[[u32; 3]] {
        self.mesh.faces.as_chunks::<3>().0
    }
    /// In any direction, at a distance between two numbers of radii from the centroid; every second one between those of `odd`.
    fn stations(&self, r: &mut Random, even: [f64; 2], odd: [f64; 2], n: usize) -> Vec<V3> {
        let mut at = |[a, b]: [f64; 2]| -> V3 {
            let (d, z, turn) = (self.radius * r.between(a, b), r.between(-1.0, 1.0), r.between(0.0, std::f64::consts::TAU));
            let s = (1.0 - z * z).sqrt();
            let u = [s * turn.cos(), s * turn.sin(), z];
            core::array::from_fn(|i| self.centroid[i] + d * u[i])
        };
        (0..n).map(|i| at(if i % 2 == 0 { even } else { odd })).collect()
    }
    /// The reference's field of a mesh that is checked already.
    fn field(&self, p: V3) -> bodies::Newtonian {
        if distance(p, self.centroid) > bodies::POLYHEDRON_FAR * self.radius {
            bodies::tetrahedra(p, self.centroid, &self.verts, &self.faces)
        } else {
            bodies::edge_face_sums(p, &self.verts, &self.faces)
        }
    }
}

const NEAR: [f64; 2] = [1.6, 2.6];
const FAR: [f64; 2] = [6.0, 12.0];

/// A sphere of 4n(n - 1) triangles.
fn sphere(n: usize) -> Mesh {
    let m = 2 * n;
    let mut v: Vec<V3> = vec![[0.0, 0.0, 1.0]];
    for i in 1..n {
        let t = std::f64::consts::PI * i as f64 / n as f64;
        v.extend((0..m).map(|j| { let a = std::f64::consts::TAU * j as f64 / m as f64; [t.sin() * a.cos(), t.sin() * a.sin(), t.cos()] }));
    }
    v.push([0.0, 0.0, -1.0]);
    let at = |i: usize, j: usize| (1 + (i - 1) * m + j % m) as u32;
    let last = v.len() as u32 - 1;
    let mut f: Vec<[u32; 3]> = vec![];
    for j in 0..m {
        f.push([0, at(1, j), at(1, j + 1)]);
        for i in 1..n - 1 {
            f.push([at(i, j), at(i + 1, j), at(i + 1, j + 1)]);
            f.push([at(i, j), at(i + 1, j + 1), at(i, j + 1)]);
        }
        f.push([at(n - 1, j + 1), at(n - 1, j), last]);
    }
    let faces = f.concat();
    Mesh { verts: v.concat(), room: faces.len(), faces }
}

/// The sphere with each vertex moved along its radius; every face is still seen from the middle on its inside.
fn rough(n: usize) -> Mesh {
    let (mut m, mut r) = (sphere(n), Random::new());
    for v in m.verts.chunks_exact_mut(3) {
        let k = r.between(0.8, 1.2);
        v.iter_mut().for_each(|x| *x *= k);
    }
    m
}

/// 24, 528 and 32,760 faces, the most below 32,768.
fn made() -> Vec<Body> {
    let both = |n| [Body::new("smooth", sphere(n)), Body::new("rough", rough(n))];
    [3, 12].into_iter().flat_map(both).chain([Body::new("smooth", sphere(91))]).collect()
}

/// The lines `v x y z` and `f a b c` of a Wavefront OBJ file, where a/b/c stands for its first number; other lines are skipped.
fn obj(text: &str) -> Result<Mesh, String> {
    let (mut verts, mut faces) = (vec![], vec![]);
    for (i, line) in text.lines().enumerate() {
        let wrong = |what: &str| format!("line {}: {what}", i + 1);
        let mut words = line.split_whitespace();
        let kind = words.next();
        let words: Vec<&str> = words.collect();
        match kind {
            Some("v" | "f") if words.len() != 3 => return Err(wrong(&format!("{} words in the place of three", words.len()))),
            Some("v") => for w in words {
                verts.push(w.parse::<f64>().map_err(|_| wrong(&format!("{w} is no number")))?);
            },
            Some("f") => for w in words {
                let index = w.split('/').next().unwrap().parse::<u32>().ok().filter(|&k| k > 0);
                faces.push(index.ok_or_else(|| wrong(&format!("{w} is no vertex, counted from 1")))? - 1);
            },
            _ => {}
        }
    }
    Ok(Mesh { room: faces.len(), verts, faces })
}

/// The bodies of the files that check_mesh accepts; a file that cannot be read ends the program.
fn read(files: &[String]) -> Vec<Body> {
    let mut all = vec![];
    for file in files {
        let text = std::fs::read_to_string(file).unwrap_or_else(|e| end(&format!("{file}: {e}")));
        let mesh = obj(&text).unwrap_or_else(|e| end(&format!("{file}: {e}")));
        let name = std::path::Path::new(file).file_stem().unwrap().to_string_lossy().into_owned();
        let (n, values) = checked(&mesh, &mut vec![0; mesh.room]);
        if n == 0 {
            all.push(Body::new(&format!("real ({name})"), mesh));
        } else {
            println!("{file}: {} vertices, {} faces, skipped: check_mesh refuses it by {n}, values {values:?}", mesh.verts.len() / 3, mesh.faces.len() / 3);
        }
    }
    all
}

fn end(message: &str) -> ! {
    eprintln!("{message}");
    std::process::exit(2)
}

// ---- groups

fn polyhedron(p: &V3, m: &Mesh, work: &RefCell<Vec<u32>>) {
    let (mut out, mut values, mut w) = ([0.0; 13], [0; 2], work.borrow_mut());
    let n = unsafe { ffi::physica_polyhedron(p, m.verts.as_ptr(), m.verts.len(), m.faces.as_ptr(), m.faces.len(), w.as_mut_ptr(), w.len(), &mut out, &mut values) };
    assert_eq!(n, 0);
    black_box(out);
}

fn checked(m: &Mesh, work: &mut [u32]) -> (u32, [u32; 2]) {
    let (mut out, mut values) = (0.0, [0; 2]);
    let n = unsafe { ffi::physica_check_mesh(m.verts.as_ptr(), m.verts.len(), m.faces.as_ptr(), m.faces.len(), work.as_mut_ptr(), work.len(), &mut out, &mut values) };
    black_box(out);
    (n, values)
}

fn check_mesh(m: &Mesh, work: &RefCell<Vec<u32>>) {
    assert_eq!(checked(m, &mut work.borrow_mut()).0, 0);
}

fn integrals(b: &Bench, r: &mut Random) {
    head("numbers", "reference");
    let one = |n: u32, x: f64| { assert_eq!(n, 0); black_box(x); };
    let lists = |r: &mut Random, n: usize, a: f64, b: f64| -> Vec<Vec<f64>> { (0..256).map(|_| r.list(n, a, b)).collect() };
    let near = lists(r, 4, 0.5, 1.5);
    let wide: Vec<Vec<f64>> = (0..256).map(|_| r.list(4, -10.0, 10.0).iter().map(|x| x.exp2()).collect()).collect();
    for (kind, xs) in [("from 0.5 to 1.5", &near), ("from 2^-10 to 2^10", &wide)] {
        b.row("carlson_rc", kind, xs, |a| { let mut o = 0.0; one(unsafe { ffi::physica_carlson_rc(a[0], a[1], &mut o) }, o) }, |a| { black_box(special::carlson_rc(a[0], a[1])); });
        b.row("carlson_rf", kind, xs, |a| { let mut o = 0.0; one(unsafe { ffi::physica_carlson_rf(a[0], a[1], a[2], &mut o) }, o) }, |a| { black_box(special::carlson_rf(a[0], a[1], a[2])); });
        b.row("carlson_rd", kind, xs, |a| { let mut o = 0.0; one(unsafe { ffi::physica_carlson_rd(a[0], a[1], a[2], &mut o) }, o) }, |a| { black_box(special::carlson_rd(a[0], a[1], a[2])); });
        b.row("carlson_rj", kind, xs, |a| { let mut o = 0.0; one(unsafe { ffi::physica_carlson_rj(a[0], a[1], a[2], a[3], &mut o) }, o) }, |a| { black_box(special::carlson_rj(a[0], a[1], a[2], a[3])); });
    }
    let unit = lists(r, 4, 0.0, 0.99);
    b.row("complete_elliptic", "m from 0 to 0.99", &unit, |a| { let mut o = [0.0; 2]; one(unsafe { ffi::physica_complete_elliptic(a[0], &mut o) }, o[0]) }, |a| { black_box(special::complete_elliptic(a[0])); });
    b.row("cel", "from 0.5 to 1.5", &near, |a| { let mut o = 0.0; one(unsafe { ffi::physica_cel(a[0], a[1], a[2], a[3], &mut o) }, o) }, |a| { black_box(special::cel(a[0], a[1], a[2], a[3])); });
    b.row("ring", "from 0.5 to 1.5", &near, |a| { let mut o = [0.0; 3]; one(unsafe { ffi::physica_ring(a[0], a[1], a[2], &mut o) }, o[0]) }, |a| { black_box(special::ring(a[0], a[1], a[2])); });
    for order in [4u32, 16] {
        b.row("gauss_legendre", &format!("order {order}"), &[order], |n| { let (mut x, mut w) = ([0.0; 16], [0.0; 16]); one(unsafe { ffi::physica_gauss_legendre(*n, &mut x, &mut w) }, x[0] + w[0]) }, |n| { black_box(gauss_legendre(*n as usize)); });
    }
}

fn prisms(b: &Bench, r: &mut Random) {
    head("prisms", "reference");
    let mut at = |scale: f64, lo: V3, hi: V3| -> Vec<[V3; 3]> { (0..32).map(|_| [core::array::from_fn(|_| scale * r.between(0.5, 1.0)), lo, hi]).collect() };
    let kinds = [
        ("inside", at(0.9, [-1.0; 3], [1.0; 3])),
        ("near, outside", at(2.2, [-1.0; 3], [1.0; 3])),
        ("far", at(12.0, [-1.0; 3], [1.0; 3])),
        ("very far", at(1000.0, [-1.0; 3], [1.0; 3])),
        ("plate, bisecting", at(1.0, [-100.0, -100.0, -0.1], [100.0, 100.0, 0.1])),
        ("needle, bisecting", at(1.0, [-0.1, -0.1, -100.0], [0.1, 0.1, 100.0])),
    ];
    for (kind, xs) in &kinds {
        b.row("prism", kind, xs, |[p, lo, hi]| {
            let (mut out, mut values) = ([0.0; 13], [0; 2]);
            assert_eq!(unsafe { ffi::physica_prism(p, lo, hi, &mut out, &mut values) }, 0);
            black_box(out);
        }, |[p, lo, hi]| { black_box(bodies::prism(*p, *lo, *hi)); });
    }
}

/// The reference's check comes with the order list, which it has not.
fn meshes(b: &Bench, all: &[Body]) {
    head("meshes", "reference");
    for q in all {
        let work = RefCell::new(vec![0; q.mesh.room]);
        b.row("check_mesh", &q.name, &[()], |_| check_mesh(&q.mesh, &work), |_| { black_box((bodies::check_mesh(&q.verts, &q.faces).unwrap(), order_list(&q.mesh.faces))); });
    }
}

/// The body at a radius of 1,000 as text with six digits after the point, and at 1,000,000 as whole numbers.
fn as_text(q: &Body) -> (Vec<u8>, Vec<V3>) {
    let scaled = |v: V3, radius: f64| v.map(|x| x * (radius / q.radius));
    let lines = q.verts.iter().map(|&v| { let [x, y, z] = scaled(v, 1e3); format!("v {x:.6} {y:.6} {z:.6}\n") });
    let text = lines.chain(q.faces.iter().map(|f| format!("f {} {} {}\n", f[0] + 1, f[1] + 1, f[2] + 1))).collect::<String>();
    (text.into_bytes(), q.verts.iter().map(|&v| scaled(v, 1e6).map(f64::round)).collect())
}

/// The reference's side is the reader and the writer of src/obj.rs, into lists of their own. Rough bodies have no shorter or longer texts than smooth ones.
fn texts(b: &Bench, all: &[Body]) {
    head("texts", "reference");
    for q in all.iter().filter(|q| !q.name.ends_with("rough")) {
        let (text, whole) = as_text(q);
        let (verts, faces) = (vec![[0.0; 3]; q.verts.len()], vec![[0; 3]; q.faces.len()]);
        let lists = RefCell::new((verts, faces));
        b.row("read_obj", &q.name, &[()], |_| {
            let (verts, faces) = &mut *lists.borrow_mut();
            assert!(physica::read_obj_into(black_box(&text), verts, faces).is_ok());
        }, |_| { black_box(obj::read(black_box(&text), [q.mesh.verts.len(), q.mesh.faces.len()]).unwrap()); });
        let room = RefCell::new(vec![0; 38 * whole.len() + 20 * q.faces.len()]);
        b.row("write_obj", &q.name, &[()], |_| {
            assert!(physica::write_obj_into(black_box(&whole), q.triangles(), &mut room.borrow_mut()).is_ok());
        }, |_| { black_box(obj::write(black_box(whole.as_flattened()), &q.mesh.faces, usize::MAX).unwrap()); });
    }
}

/// Single calls: the whole call, and the field alone, which is the call less its mesh check here and the sums without one in the reference.
fn polyhedra(b: &Bench, all: &[Body], r: &mut Random) {
    head("polyhedron", "reference");
    for q in all {
        let work = RefCell::new(vec![0; q.mesh.room]);
        for (kind, at) in [("near", NEAR), ("far", FAR)] {
            let ps = q.stations(r, at, at, if q.faces.len() > 1000 { 1 } else { 8 });
            let (inputs, n) = (format!("{}, {kind}", q.name), ps.len() as f64);
            if !b.wanted(&inputs) {
                continue;
            }
            let [call, check, whole, alone] = b.best([
                &|| black_box(&ps).iter().for_each(|p| polyhedron(p, &q.mesh, &work)),
                &|| check_mesh(&q.mesh, &work),
                &|| black_box(&ps).iter().for_each(|p| { black_box(bodies::polyhedron(*p, &q.verts, &q.faces)); }),
                &|| black_box(&ps).iter().for_each(|p| { black_box(q.field(*p)); }),
            ]);
            line("polyhedron", &inputs, call / n, whole / n);
            line("polyhedron less check_mesh", &inputs, call / n - check, alone / n);
        }
    }
}

fn magnetic(b: &Bench, r: &mut Random) {
    head("magnetics", "reference");
    let xs: Vec<Vec<f64>> = (0..256).map(|_| r.list(16, 0.2, 3.0)).collect();
    for (name, reference) in [
        ("body", (|a| { black_box(anomaly::body(m3(a), v3(&a[9..]))); }) as fn(&[f64])),
        ("total_field", |a| { black_box(anomaly::total_field(v3(a), v3(&a[3..]))); }),
        ("sphere", |a| { black_box(anomaly::sphere(v3(a), v3(&a[3..]), a[6], v3(&a[7..]))); }),
        ("cylinder", |a| { black_box(anomaly::cylinder(v3(a), v3(&a[3..]), v3(&a[6..]), a[9], v3(&a[10..]))); }),
        ("ellipsoid_factors", |a| { black_box(anomaly::ellipsoid_factors(a[0], a[1], a[2])); }),
        ("magnetisation", |a| { black_box(anomaly::magnetisation(a[0], v3(&a[1..]), v3(&a[4..]), m3(&a[7..]))); }),
        ("koenigsberger", |a| { black_box(anomaly::koenigsberger(v3(a), a[3], v3(&a[4..]))); }),
    ] {
        let here: fn(&[f64]) = match name {
            "body" => |a| { let mut o = [0.0; 3]; unsafe { ffi::physica_body(a.as_ptr().cast(), a[9..].as_ptr().cast(), &mut o) }; black_box(o); },
            "total_field" => |a| { let mut o = 0.0; unsafe { ffi::physica_total_field(a.as_ptr().cast(), a[3..].as_ptr().cast(), &mut o) }; black_box(o); },
            "sphere" => |a| { let mut o = [0.0; 3]; unsafe { ffi::physica_sphere(a.as_ptr().cast(), a[3..].as_ptr().cast(), a[6], a[7..].as_ptr().cast(), &mut o) }; black_box(o); },
            "cylinder" => |a| { let mut o = [0.0; 3]; unsafe { ffi::physica_cylinder(a.as_ptr().cast(), a[3..].as_ptr().cast(), a[6..].as_ptr().cast(), a[9], a[10..].as_ptr().cast(), &mut o) }; black_box(o); },
            "ellipsoid_factors" => |a| { let mut o = [0.0; 3]; unsafe { ffi::physica_ellipsoid_factors(a[0], a[1], a[2], &mut o) }; black_box(o); },
            "magnetisation" => |a| { let mut o = [0.0; 3]; unsafe { ffi::physica_magnetisation(a[0], a[1..].as_ptr().cast(), a[4..].as_ptr().cast(), a[7..].as_ptr().cast(), &mut o) }; black_box(o); },
            _ => |a| { let mut o = 0.0; unsafe { ffi::physica_koenigsberger(a.as_ptr().cast(), a[3], a[4..].as_ptr().cast(), &mut o) }; black_box(o); },
        };
        b.row(name, "from 0.2 to 3", &xs, |a| here(a), |a| reference(a));
    }
}

/// Where the stations of profiles and sheets lie, and how many; every second one is far where they are mixed.
fn places(q: &Body) -> Vec<(&'static str, [f64; 2], [f64; 2], usize)> {
    let mut all: Vec<_> = [("near", NEAR), ("far", FAR)].into_iter().flat_map(|(kind, at)| [1, 8, 64].map(|n| (kind, at, at, n))).collect();
    if q.faces.len() < 1000 {
        all.push(("mixed", NEAR, FAR, 64));
    }
    all
}

fn inputs(q: &Body, kind: &str, n: usize) -> String {
    format!("{}, {kind}, {n} {}", q.name, if n == 1 { "station" } else { "stations" })
}

/// The reference's side is its mesh check, once, and the sums of each station.
fn profiles(b: &Bench, all: &[Body], r: &mut Random) {
    head("profiles", "reference");
    for q in all {
        for (kind, even, odd, n) in places(q) {
            let ps = q.stations(r, even, odd, n);
            if !b.wanted(&inputs(q, kind, n)) {
                continue;
            }
            let lent = RefCell::new((vec![0; q.mesh.room], vec![0.0; 13 * n]));
            let [here, reference] = b.best([
                &|| {
                    let (work, fields) = &mut *lent.borrow_mut();
                    assert!(physica::profile_into(black_box(&ps), &q.verts, q.triangles(), work, fields).is_ok());
                },
                &|| {
                    black_box(bodies::check_mesh(&q.verts, &q.faces).unwrap());
                    black_box(&ps).iter().for_each(|p| { black_box(q.field(*p)); });
                },
            ]);
            line("profile", &inputs(q, kind, n), here, reference);
        }
    }
}

const MAGNETISATION: V3 = [1.0, 2.0, -2.0];
const AMBIENT: V3 = [2e-5, 0.0, 4.5e-5];

/// The reference has no sheets: its side is the mesh check and the order list, once, and the sums, body and total_field of each station.
fn sheets(b: &Bench, all: &[Body], r: &mut Random) {
    head("sheets", "reference");
    for q in all {
        let body = physica::Body::Mesh { verts: &q.verts, faces: q.triangles() };
        for (kind, even, odd, n) in places(q) {
            let ps = q.stations(r, even, odd, n);
            if !b.wanted(&inputs(q, kind, n)) {
                continue;
            }
            let room = physica::sheet_length(q.verts.len(), q.faces.len(), n);
            let lent = RefCell::new((vec![0; q.mesh.room], vec![0; room]));
            let write = || {
                let (work, out) = &mut *lent.borrow_mut();
                assert!(physica::write_sheet_into(body, MAGNETISATION, AMBIENT, black_box(&ps), work, out).is_ok());
            };
            // written in each turn before it is checked
            let [written, checked, reference] = b.best([
                &write,
                &|| assert!(physica::check_sheet(black_box(&lent.borrow().1)).is_ok()),
                &|| {
                    black_box((bodies::check_mesh(&q.verts, &q.faces).unwrap(), order_list(&q.mesh.faces)));
                    for p in black_box(&ps) {
                        let (_, _, t) = black_box(q.field(*p));
                        black_box(anomaly::total_field(AMBIENT, anomaly::body(t, MAGNETISATION)));
                    }
                },
            ]);
            line("write_sheet", &inputs(q, kind, n), written, reference);
            line("check_sheet", &inputs(q, kind, n), checked, reference);
        }
    }
}

/// The least closed body.
fn tetrahedron() -> Mesh {
    let verts = vec![0.0, 0.0, 0.0, 1.0, 0.0, 0.0, 0.0, 1.0, 0.0, 0.0, 0.0, 1.0];
    Mesh { verts, room: 12, faces: vec![0, 2, 1, 0, 1, 3, 0, 3, 2, 1, 2, 3] }
}

/// What checking a mesh sheet takes, against the fields of its stations: those of a station are `polyhedron` less `check_mesh`, then `body` and `total_field`.
fn checking(b: &Bench) {
    head("checking", "its fields");
    let near = [(1, 1), (2, 1), (2, 8), (3, 1), (3, 2), (5, 1), (9, 1), (9, 2), (17, 1), (17, 2), (33, 1), (65, 1), (65, 2), (91, 1)];
    let rows = near.map(|(n, c)| (n, c, "near", 1.0)).into_iter().chain([1, 3, 17, 91].map(|n| (n, 1, "at 4 radii", 2.2))).chain([1, 3, 17].map(|n| (n, 1, "far", 9.0)));
    for (n, count, kind, scale) in rows {
        let q = Body::new("smooth", if n == 1 { tetrahedron() } else { sphere(n) });
        if !b.wanted(&inputs(&q, kind, count)) {
            continue;
        }
        let body = physica::Body::Mesh { verts: &q.verts, faces: q.triangles() };
        let p: V3 = [1.1 * scale, 0.9 * scale, 1.2 * scale];
        let sheet = physica::write_sheet(body, MAGNETISATION, AMBIENT, &vec![p; count]).unwrap();
        let hessian = [-1.0, 0.1, 0.2, 0.1, -1.5, 0.3, 0.2, 0.3, 2.5];
        let work = RefCell::new(vec![0; q.mesh.room]);
        let times = b.best([
            &|| assert!(physica::check_sheet(black_box(&sheet)).is_ok()),
            &|| polyhedron(&p, &q.mesh, &work),
            &|| check_mesh(&q.mesh, &work),
            &|| {
                let (mut anomaly, mut total) = ([0.0; 3], 0.0);
                assert_eq!(unsafe { ffi::physica_body(black_box(&hessian), &MAGNETISATION, &mut anomaly) + ffi::physica_total_field(&AMBIENT, &anomaly, &mut total) }, 0);
                black_box(total);
            },
        ]);
        line("check_sheet", &inputs(&q, kind, count), times[0], count as f64 * (times[1] - times[2] + times[3]));
    }
}

const GROUPS: [&str; 9] = ["numbers", "prisms", "magnetics", "texts", "meshes", "polyhedron", "profiles", "sheets", "checking"];
/// Those that files have too.
const OVER_BODIES: [&str; 5] = ["texts", "meshes", "polyhedron", "profiles", "sheets"];

fn main() {
    let usage = format!("usage: bench [TURNS] [--only GROUP,..] [--rows TEXT] [FILE.obj ..]; the groups are {}", GROUPS.join(", "));
    let (mut turns, mut only, mut rows, mut files) = (30, GROUPS.join(","), String::new(), vec![]);
    let mut words = std::env::args().skip(1);
    while let Some(w) = words.next() {
        match w.as_str() {
            "--only" => only = words.next().unwrap_or_else(|| end(&usage)),
            "--rows" => rows = words.next().unwrap_or_else(|| end(&usage)),
            _ if w.ends_with(".obj") => files.push(w),
            _ => turns = w.parse().unwrap_or_else(|_| end(&usage)),
        }
    }
    if only.split(',').any(|g| !GROUPS.contains(&g)) {
        end(&usage);
    }
    start();
    let b = Bench { turns, rows };
    let all = if files.is_empty() { made() } else { read(&files) };
    for group in GROUPS {
        if !only.split(',').any(|g| g == group) || !(files.is_empty() || OVER_BODIES.contains(&group)) {
            continue;
        }
        let r = &mut Random::new();
        match group {
            "numbers" => integrals(&b, r),
            "prisms" => prisms(&b, r),
            "magnetics" => magnetic(&b, r),
            "texts" => texts(&b, &all),
            "meshes" => meshes(&b, &all),
            "polyhedron" => polyhedra(&b, &all, r),
            "profiles" => profiles(&b, &all, r),
            "sheets" => sheets(&b, &all, r),
            _ => checking(&b),
        }
    }
}
