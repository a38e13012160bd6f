//! Shape models as text, asked twice: of the library, and of a reader and a writer by document 02's order 2 over the Rust's own numbers, `str::parse` and `Display`.
use super::*;

const MOST_DIGITS: usize = 15;

// ---- the reader

enum Line {
    Nothing,
    Vertex([f64; 3]),
    /// Counted from 0; not yet judged against V.
    Face([u64; 3]),
}

fn digits(s: &[u8]) -> bool {
    !s.is_empty() && s.iter().all(u8::is_ascii_digit)
}

/// A minus or nothing, digits, and, optionally, a point and digits.
fn is_number(s: &[u8]) -> bool {
    s.strip_prefix(b"-").unwrap_or(s).splitn(2, |&c| c == b'.').all(digits)
}

fn is_index(s: &[u8]) -> bool {
    digits(s) && s.iter().any(|&c| c != b'0')
}

fn is_short(s: &[u8]) -> bool {
    s.iter().filter(|c| c.is_ascii_digit()).count() <= MOST_DIGITS
}

/// A field that is known to be ASCII.
fn parsed<T: std::str::FromStr>(s: &[u8]) -> T {
    std::str::from_utf8(s).ok().and_then(|s| s.parse().ok()).unwrap()
}

/// What a line says, or 21 or 22.
fn line(l: &[u8]) -> Result<Line, u32> {
    let mut fields = l.split(|&c| c == b' ').filter(|f| !f.is_empty());
    let Some(kind) = fields.next().filter(|f| f[0] != b'#') else { return Ok(Line::Nothing) };
    let is_right = match kind {
        b"v" => is_number,
        b"f" => is_index,
        _ => return Err(21),
    };
    let [Some(a), Some(b), Some(c), None] = core::array::from_fn(|_| fields.next()) else { return Err(21) };
    let three = [a, b, c];
    match first(&[unless(three.iter().all(|s| is_right(s)), 21), unless(three.iter().all(|s| is_short(s)), 22)]) {
        0 if kind == b"v" => Ok(Line::Vertex(three.map(parsed))),
        0 => Ok(Line::Face(three.map(|s| parsed::<u64>(s) - 1))),
        n => Err(n),
    }
}

/// The coordinates and the vertex numbers of a text, for lent lists of so many entries; or the number and its values.
pub fn read(text: &[u8], room: [usize; 2]) -> Result<(Vec<f64>, Vec<u32>), (u32, [u32; 2])> {
    let (mut verts, mut faces) = (vec![], vec![]);
    for l in text.split(|&c| c == b'\n') {
        match line(l).map_err(|n| (n, [0, 0]))? {
            Line::Nothing => {}
            Line::Vertex(p) => verts.extend(p),
            Line::Face(f) => faces.extend(f),
        }
    }
    let v = verts.len() / 3;
    let cause = first(&[
        unless(v <= 20_000 && faces.len() / 3 <= 32_768, 2),
        unless(verts.len() <= room[0] && faces.len() <= room[1], 12),
        unless(all_within(&verts), 3),
    ]);
    if cause != 0 {
        return Err((cause, [0, 0]));
    }
    match faces.iter().position(|&i| i >= v as u64) {
        Some(i) => Err((4, [i as u32 / 3, 0])),
        None => Ok((verts, faces.into_iter().map(|i| i as u32).collect())),
    }
}

// ---- the writer

fn is_whole(x: f64) -> bool {
    within(x) && x.fract() == 0.0
}

/// The text, for a lent one of so many bytes; or the number and its values.
pub fn write(verts: &[f64], faces: &[u32], room: usize) -> Result<Vec<u8>, (u32, [u32; 2])> {
    let v = verts.len() / 3;
    let cause = first(&[
        unless(verts.len() % 3 == 0 && faces.len() % 3 == 0, 1),
        unless(v <= 20_000 && faces.len() / 3 <= 32_768, 2),
        unless(verts.iter().all(|&x| is_whole(x)), 3),
    ]);
    if cause != 0 {
        return Err((cause, [0, 0]));
    }
    if let Some(i) = faces.iter().position(|&i| i as usize >= v) {
        return Err((4, [i as u32 / 3, 0]));
    }
    use std::io::Write;
    let mut text = Vec::new();
    // a whole double is displayed without a point, and -0.0 as -0
    verts.chunks_exact(3).for_each(|p| writeln!(text, "v {} {} {}", p[0], p[1], p[2]).unwrap());
    faces.chunks_exact(3).for_each(|f| writeln!(text, "f {} {} {}", f[0] + 1, f[1] + 1, f[2] + 1).unwrap());
    if text.len() <= room { Ok(text) } else { Err((12, [0, 0])) }
}

// ---- both sides in one form

#[derive(Clone, Debug)]
pub struct Text {
    pub bytes: Vec<u8>,
    /// How many coordinates and how many vertex numbers are lent.
    pub room: [usize; 2],
}

const BEFORE_COUNTS: [u32; 2] = [7; 2];

/// The counts, then the list of vertices; the list of faces as work.
fn read_answer(number: u32, values: [u32; 2], counts: [u32; 2], verts: &[f64], faces: Vec<u32>) -> Answer {
    let numbers = counts.iter().map(|&c| c as u64).chain(verts.iter().map(|&x| bits(x))).collect();
    Answer { number, values, numbers, work: faces, out: vec![] }
}

pub fn read_here(t: &Text) -> Answer {
    let (mut verts, mut faces, mut counts, mut values) = (vec![BEFORE; t.room[0]], vec![BEFORE_WORK; t.room[1]], BEFORE_COUNTS, BEFORE_VALUES);
    let n = unsafe {
        ffi::physica_read_obj(
            t.bytes.as_ptr(), t.bytes.len(), verts.as_mut_ptr(), verts.len(), faces.as_mut_ptr(), faces.len(), &mut counts, &mut values,
        )
    };
    read_answer(n, values, counts, &verts, faces)
}

pub fn read_reference(t: &Text) -> Answer {
    let (mut verts, mut faces) = (vec![BEFORE; t.room[0]], vec![BEFORE_WORK; t.room[1]]);
    match read(&t.bytes, t.room) {
        Ok((v, f)) => {
            verts[..v.len()].copy_from_slice(&v);
            faces[..f.len()].copy_from_slice(&f);
            read_answer(0, [0, 0], [v.len() as u32 / 3, f.len() as u32 / 3], &verts, faces)
        }
        Err((n, values)) => read_answer(n, values, BEFORE_COUNTS, &verts, faces),
    }
}

/// What reading the text of this mesh is to answer, into lists of its own lengths.
pub fn as_read(m: &Mesh) -> Answer {
    read_answer(0, [0, 0], [m.verts.len() as u32 / 3, m.faces.len() as u32 / 3], &m.verts, m.faces.clone())
}

/// The mesh's room is that of the text, in bytes.
pub fn write_here(m: &Mesh) -> Answer {
    let (mut text, mut size, mut values) = (vec![BEFORE_OUT; m.room], BEFORE_SIZE, BEFORE_VALUES);
    let n = unsafe {
        ffi::physica_write_obj(m.verts.as_ptr(), m.verts.len(), m.faces.as_ptr(), m.faces.len(), text.as_mut_ptr(), text.len(), &mut size, &mut values)
    };
    Answer { number: n, values, numbers: vec![size as u64], work: vec![], out: text }
}

pub fn write_reference(m: &Mesh) -> Answer {
    let mut out = vec![BEFORE_OUT; m.room];
    let (number, values, size) = match write(&m.verts, &m.faces, m.room) {
        Ok(text) => {
            out[..text.len()].copy_from_slice(&text);
            (0, [0, 0], text.len())
        }
        Err((n, values)) => (n, values, BEFORE_SIZE),
    };
    Answer { number, values, numbers: vec![size as u64], work: vec![], out }
}
