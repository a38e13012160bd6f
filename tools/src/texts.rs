//! Inputs of read_obj and write_obj: texts, right and damaged, and meshes of whole and other coordinates.
use super::{Random, Table, SPECIAL};
use both::obj::{self, Text};
use both::Mesh;

/// The front of a text, for a line about a difference.
fn shown(bytes: &[u8]) -> String {
    let more = if bytes.len() > 2000 { format!(".. ({} bytes)", bytes.len()) } else { String::new() };
    format!("\"{}\"{more}", bytes[..bytes.len().min(2000)].escape_ascii())
}

fn read(table: &mut Table, text: impl Into<Vec<u8>>, room: [usize; 2]) {
    let t = Text { bytes: text.into(), room };
    table.add("read_obj", &obj::read_here(&t), &obj::read_reference(&t), || format!("{} {:?}", shown(&t.bytes), t.room));
}

/// Writes the mesh, and reads again what the library has written.
fn write(table: &mut Table, m: &Mesh) {
    let here = obj::write_here(m);
    let input = || if m.verts.len() + m.faces.len() < 200 { format!("{m:?}") } else { format!("{} coordinates, {} indices, {} bytes", m.verts.len(), m.faces.len(), m.room) };
    table.add("write_obj", &here, &obj::write_reference(m), input);
    if here.number == 0 {
        let bytes = here.out[..here.numbers[0] as usize].to_vec();
        let t = Text { bytes, room: [m.verts.len(), m.faces.len()] };
        table.add("write_obj, then read_obj", &obj::read_here(&t), &obj::as_read(m), || shown(&t.bytes));
    }
}

// ---- right texts

/// n digits: any, all zeros, all nines, some zeros in front or behind.
fn digits(r: &mut Random, n: usize) -> String {
    let mut d: Vec<char> = (0..n).map(|_| (b'0' + r.below(10) as u8) as char).collect();
    let k = r.below(n + 1);
    match r.below(8) {
        0 => d.fill('0'),
        1 => d.fill('9'),
        2 => d[..k].fill('0'),
        3 => d[k..].fill('0'),
        _ => {}
    }
    d.into_iter().collect()
}

/// Of at most 15 digits; one in eight may be over the limit of 3.
fn number(r: &mut Random) -> String {
    let most = if r.chance(8) { 15 } else { 9 };
    let before = 1 + r.below(most);
    let after = if r.chance(3) { 0 } else { r.below(16 - before) };
    let (sign, whole, fraction) = (r.pick(&["", "-"]), digits(r, before), digits(r, after));
    if after == 0 { format!("{sign}{whole}") } else { format!("{sign}{whole}.{fraction}") }
}

/// A vertex of v, now and then with zeros in front, or just not a vertex.
fn index(r: &mut Random, v: usize) -> String {
    let i = if r.chance(60) { v + 1 + r.below(2) } else { 1 + r.below(v.max(1)) };
    if r.chance(8) { format!("{i:0w$}", w = 1 + r.below(15)) } else { i.to_string() }
}

fn spaces(r: &mut Random, least: usize) -> String {
    " ".repeat(if r.chance(8) { least + r.below(4) } else { least })
}

fn line(r: &mut Random, letter: &str, fields: [String; 3]) -> String {
    let mut l = spaces(r, 0) + letter;
    for f in fields {
        l += &(spaces(r, 1) + &f);
    }
    l + &spaces(r, 0)
}

fn comment(r: &mut Random) -> String {
    let text = r.pick(&["", "#", "# x", "  #x", "#v 1 2", " ", "   ", "# a\tb", "#\r", "# 1234567890123456", "#\0\u{e9}"]);
    text.to_string()
}

/// A text of right lines, faces last or anywhere, with V and F.
fn right(r: &mut Random) -> (String, [usize; 2]) {
    let (v, f) = (r.below(8), r.below(8));
    let mut lines: Vec<String> = (0..v).map(|_| { let p = [number(r), number(r), number(r)]; line(r, "v", p) }).collect();
    lines.extend((0..if v == 0 && !r.chance(8) { 0 } else { f }).map(|_| { let g = [index(r, v), index(r, v), index(r, v)]; line(r, "f", g) }));
    let f = lines.len() - v;
    for _ in 0..r.pick(&[0, 0, 1, 3]) {
        let (at, c) = (r.below(lines.len() + 1), comment(r));
        lines.insert(at, c);
    }
    if r.chance(4) {
        (1..lines.len()).rev().for_each(|i| lines.swap(i, r.below(i + 1)));
    }
    (lines.join("\n") + r.pick(&["\n", "\n", "", "\n\n"]), [v, f])
}

/// Room for the mesh, some more, one too few, none.
fn room(r: &mut Random, n: usize) -> usize {
    match r.below(24) {
        0 => n.saturating_sub(1),
        1 => n.saturating_sub(1 + r.below(4)),
        2 => 0,
        _ => n + r.pick(&[0, 0, 1, 2, 3, 9]),
    }
}

// ---- texts that are refused

/// Lines of document 02's forms and of none, each with what makes it right or wrong at one place.
const FORMS: [&str; 96] = [
    "", " ", "#", "# x", "  #x", "#v 1 2", "v 1 2 3", "v  1 2   3 ", "v 00 -0 007", "f 1 1 1", "f 01 1 1", "v 1 2", "v 1 2 3 4", "v 1 2 3 # c", "v", "f", "f 1 1", "f 1 1 1 1", "v +1 2 3",
    "v .5 2 3", "v 5. 2 3", "v -.5 2 3", "v - 2 3", "v -- 2 3", "v --5 2 3", "v 5- 2 3", "v . 2 3", "v -. 2 3", "v 1.2.3 2 3", "v 1..2 2 3", "v 1e5 2 3", "v 1E5 2 3", "v 0x1 2 3", "v nan 2 3",
    "v inf 2 3", "v 1,5 2 3", "V 1 2 3", "F 1 1 1", "v1 2 3", "v1 2 3 4", "vv 1 2 3", "vn 1 2 3", "vt 1 2", "o a", "g a", "s 1", "s off", "usemtl a", "mtllib a", "l 1 1", "p 1", "1 2 3",
    "\tv 1 2 3", "v\t1 2 3", "v 1\t2 3", "v 1 2\t3", "v 1 2 3\t", "\t", "\t#", "v 1 2 3\r", "f 1 1 1\r", "\r", "\r#", "#\r", "v 1 2 3\0", "\0", "v 1 2 \u{b2}", "f 0 1 1", "f 00 1 1", "f 1 1 0",
    "f -1 1 1", "f +1 1 1", "f 1/1 1/1 1/1", "f 1//1 1//1 1//1", "f 1.0 1 1", "f 1. 1 1", "f 1 1 0000000000000000", "f 0 1 1234567890123456", "v 1234567890123456 0 x", "v 1 2 1234567890123456 3",
    "x 1234567890123456", "v 0.000000000000001 0 0", "v 0000000000000001 0 0", "v 1.000000000000000 0 0", "f 1 1 0000000000000001", "v 0.00000000000001 0 0", "v 999999999999999 0 0",
    "v 1000000000.00001 0 0", "v 1000000000.00000 0 0", "v -1000000000.00001 0 0", "f 1 1 4294967297", "f 1 1 4294967296", "f 1 1 2", "f 1 1 999999999999999", "f 1 1 1000000000000000", "v#1 2 3",
];

const BYTES: &[u8] = b" \n\r\t\0.-+#0123456789vfVeE/x,\x0b\x0c\x7f\x80\xa0\xff";

/// Up to three changes: a byte, a piece, a line, more digits.
fn damaged(r: &mut Random, text: &str) -> Vec<u8> {
    let mut b = text.as_bytes().to_vec();
    for _ in 0..1 + r.below(3) {
        let at = r.below(b.len() + 1);
        let to = (at + r.below(12)).min(b.len());
        match r.below(10) {
            0 | 1 if at < b.len() => b[at] = r.pick(BYTES),
            2 | 3 => b.insert(at, r.pick(BYTES)),
            4 if at < b.len() => { b.remove(at); }
            5 => { let piece = b[at..to].to_vec(); b.splice(at..at, piece); }
            6 => { b.drain(at..to); }
            7 => { let l = r.pick(&FORMS); b.splice(at..at, format!("\n{l}\n").bytes()); }
            // zeros before or behind a digit
            8 => if let Some(at) = (at..b.len()).find(|&i| b[i].is_ascii_digit()) { let n = 8 + r.below(9); b.splice(at..at, vec![b'0'; n]); },
            _ => b.truncate(at),
        }
    }
    b
}

/// Each form alone, among right lines, and before and after each other one.
fn forms(table: &mut Table) {
    let right = "v 1 2 3\nv -4 5.5 -0\nf 1 2 1\n";
    for a in FORMS {
        for text in [a.to_string(), format!("{a}\n"), format!("{right}{a}"), format!("{a}\n{right}")] {
            read(table, text, [18, 9]);
        }
        for b in FORMS {
            read(table, format!("v 0 0 0\n{a}\n{b}\n"), [9, 6]);
            read(table, format!("{a}\n{b}"), [0, 0]);
        }
    }
    for bytes in 0..=255 {
        for at in 0..=8 {
            let mut text = b"v 1 2 33".to_vec();
            text.insert(at, bytes);
            read(table, text, [6, 6]);
        }
    }
}

/// One to 17 digits, the point at each place and nowhere, with and without a minus, at each place of a line.
fn numbers(r: &mut Random, table: &mut Table) {
    let cases = (1..=17).flat_map(|n| (0..=n + 1).flat_map(move |point| ["", "-"].map(|minus| (n, point, minus))));
    for (n, point, minus) in cases {
        let mut all = vec!["0".repeat(n), "9".repeat(n), format!("1{}", "0".repeat(n - 1)), format!("{}1", "0".repeat(n - 1))];
        all.extend((0..12).map(|_| digits(r, n)));
        for d in all {
            let number = if point > n { format!("{minus}{d}") } else { format!("{minus}{}.{}", &d[..point], &d[point..]) };
            let mut fields = ["0".to_string(), "-0.5".to_string(), "1".to_string()];
            fields[r.below(3)] = number;
            read(table, format!("v {}", fields.join(" ")), [3, 0]);
        }
    }
}

/// Indices at the limits of V, of 16, 31 and 32 bits, and of 15 digits, at each corner of a face, before and after the vertices.
fn indices(table: &mut Table) {
    for v in [0u64, 1, 2, 9, 10, 99, 100, 255, 256, 257, 9_999, 10_000, 19_999, 20_000] {
        let vertices = "v 1 2 3\n".repeat(v as usize);
        let bits = [16, 31, 32, 33].into_iter().flat_map(|n| [(1u64 << n) - 1, 1 << n, (1 << n) + 1, (1 << n) + v, (1 << n) + v + 1]);
        let near = [0, 1, 2, v.saturating_sub(1), v, v + 1, 999_999_999_999_999, 1_000_000_000_000_000];
        for (i, corner) in near.into_iter().chain(bits).flat_map(|i| [0, 1, 2].map(|corner| (i, corner))) {
            for w in [1, 15, 16] {
                let mut fields = ["1".to_string(), "1".to_string(), "1".to_string()];
                fields[corner] = format!("{i:0w$}");
                let face = fields.join(" ");
                // the first face is right where there is a vertex, so that 4 names the second
                let text = if w == 15 { format!("f 1 1 1\nf {face}\n{vertices}") } else { format!("{vertices}f 1 1 1\nf {face}\n") };
                read(table, text, [3 * v as usize, 6]);
            }
        }
    }
}

/// Counts at their limits and one over with the longest numbers, lists just long enough and too short by one; long lines; a text of nothing.
fn limits(table: &mut Table) {
    let (vertex, face) = ("v -999999999.99999 -1000000000.0000 0.00000000000001\n", "f 000000000020000 000000000000001 000000000019999\n");
    for (v, f) in [(20_000, 32_768), (20_001, 1), (20_000, 32_769), (20_001, 32_769)] {
        let text = vertex.repeat(v) + &face.repeat(f);
        for room in [[3 * v, 3 * f], [3 * v + 1, 3 * f + 2], [3 * v - 1, 3 * f], [3 * v, 3 * f - 1], [0, 0]] {
            read(table, &text[..], room);
        }
        for last in ["x", "v 1 2 0000000000000000", "v 1000000001 0 0", "f 20001 1 1", "# c"] {
            read(table, format!("{text}{last}"), [3 * v + 3, 3 * f + 3]);
        }
    }
    let (zeros, blanks) = ("0".repeat(70_000), " ".repeat(70_000));
    for text in [&zeros, &blanks, &format!("#{zeros}"), &format!("{blanks}#"), &format!("v{blanks}1{blanks}2{blanks}3"), &format!("v 1 2 {zeros}"), &format!("v 1 2 0.{zeros}"), &format!("v 1 2 {zeros}x"),
        &format!("f 1 1 {zeros}"), &format!("f 1 1 {zeros}1"), &format!("v 1 2 3 {zeros}"), &"\n".repeat(70_000), &"v 1 2 3".repeat(10_000)] {
        read(table, &text[..], [9, 9]);
        read(table, format!("v 0 0 0\n{text}\nv 1 2"), [9, 9]);
    }
    read(table, "", [0, 0]);
    read(table, "", [2, 2]);
    for (v, f) in [(20_000, 32_768), (20_001, 0), (20_000, 32_769), (1, 32_769)] {
        let m = Mesh { verts: vec![-1e9; 3 * v], faces: vec![v as u32 - 1; 3 * f], room: 38 * v + 20 * f };
        for (room, x) in [(m.room, -1e9), (m.room - 1, -1e9), (m.room + 7, -1e9), (0, -1e9), (m.room, 0.5)] {
            let mut m = Mesh { room, ..m.clone() };
            m.verts[3 * v - 1] = x;
            write(table, &m);
            m.verts.push(x);
            write(table, &m);
        }
    }
}

// ---- meshes to write

fn whole(r: &mut Random) -> f64 {
    let power = 10u64.pow(r.below(10) as u32);
    let x = match r.below(8) {
        0 => 0,
        1 => 1_000_000_000 - r.below(3) as u64,
        2 => power,
        3 => power - 1,
        4 => (power + 1).min(1_000_000_000),
        _ => r.next() % power,
    };
    r.signed(x as f64)
}

/// Not whole, over the limit, or any double.
fn other(r: &mut Random) -> f64 {
    match r.below(6) {
        0 => r.pick(&SPECIAL),
        1 => f64::from_bits(r.next()),
        2 => r.pick(&[1_000_000_001.0, -1_000_000_001.0, 1000000000.5, -0.5, 0.999999999999999, 4294967296.0, 1e15, 9007199254740992.0, 1e300]),
        3 => { let x = whole(r); f64::from_bits(x.to_bits() ^ 1 << r.below(64)) }
        4 => whole(r) / r.pick(&[2.0, 3.0, 10.0, 1024.0]),
        _ => whole(r),
    }
}

/// Whole coordinates and right faces; then one fault now and then, or several. The text has just room, some more, or too little.
fn mesh(r: &mut Random) -> Mesh {
    let v = r.below(10);
    let mut m = Mesh { verts: (0..3 * v).map(|_| whole(r)).collect(), faces: (0..if v == 0 { 0 } else { 3 * r.below(10) }).map(|_| r.below(v) as u32).collect(), room: 0 };
    m.room = obj::write(&m.verts, &m.faces, usize::MAX).unwrap().len();
    m.room = match r.below(6) { 0 => m.room.saturating_sub(1), 1 => r.below(m.room + 1), 2 => m.room + 1 + r.below(50), _ => m.room };
    for _ in 0..r.pick(&[0, 0, 1, 3]) {
        match r.below(8) {
            0 => { m.verts.pop(); }
            1 => { m.faces.pop(); }
            2 | 3 => if !m.faces.is_empty() { let i = r.below(m.faces.len()); m.faces[i] = r.pick(&[v as u32, v as u32 + 1, u32::MAX, 0]); },
            4 => m.faces.extend([0, 0, v as u32]),
            _ => if !m.verts.is_empty() { let i = r.below(m.verts.len()); m.verts[i] = other(r); },
        }
    }
    m
}

/// All that is fixed, then `count` texts, as many damaged ones, and as many meshes.
pub fn run(r: &mut Random, count: usize, table: &mut Table) {
    forms(table);
    numbers(r, table);
    indices(table);
    limits(table);
    for _ in 0..count {
        let (text, [v, f]) = right(r);
        read(table, &text[..], [room(r, 3 * v), room(r, 3 * f)]);
        let text = damaged(r, &text);
        read(table, text, [room(r, 3 * v), room(r, 3 * f)]);
        write(table, &mesh(r));
    }
}
