//! Shape models as text: each form of a line with its number, the values of numbers, the limits, what lent lists hold, and written meshes read again.
use physica::{ffi, read_obj, read_obj_into, write_obj, write_obj_into, Mesh, Refusal};

const VERTS: [[f64; 3]; 4] = [[0.0, 0.0, 0.0], [1.0, 0.0, 0.0], [0.0, 1.0, 0.0], [0.0, 0.0, 1.0]];
const FACES: [[u32; 3]; 4] = [[0, 2, 1], [0, 1, 3], [0, 3, 2], [1, 2, 3]];
const TEXT: &str = "v 0 0 0\nv 1 0 0\nv 0 1 0\nv 0 0 1\nf 1 3 2\nf 1 2 4\nf 1 4 3\nf 2 3 4\n";

/// V and F, or the number of the refusal.
fn counts(text: impl AsRef<[u8]>) -> Result<(usize, usize), u32> {
    read_obj(text.as_ref()).map(|(v, f)| (v.len(), f.len())).map_err(Refusal::number)
}

/// The bits of the one coordinate of a line `v NUMBER 0 0`.
fn value(number: &str) -> u64 {
    let (verts, _) = read_obj(format!("v {number} 0 0").as_bytes()).unwrap();
    verts[0][0].to_bits()
}

fn bits(verts: &[[f64; 3]]) -> Vec<u64> {
    verts.as_flattened().iter().map(|x| x.to_bits()).collect()
}

#[test]
fn right_lines() {
    let nothing = ["", "\n", "\n\n\n", "   ", "  \n ", "# x", "  #x", "#v 1 2", "#", "#\r", "# a\tb\r\n", "#1234567890123456", "# \0\n"];
    for text in nothing {
        assert_eq!(counts(text), Ok((0, 0)), "{text:?}");
    }
    assert_eq!(counts(b"# \xff\xfe\n#\x80"), Ok((0, 0)));
    for text in ["v 1 2 3", "v 1 2 3\n", "v  1 2   3 ", " v 1 2 3", "v 00 -0 007", "v -1.5 0.25 -0.0"] {
        assert_eq!(counts(text), Ok((1, 0)), "{text:?}");
    }
    let three = "v 1 2 3\nv 4 5 6\nv 7 8 9\n";
    for face in ["f 1 2 3", "f 01 2 3", "  f  3 2   1  ", "f 000000000000001 2 3", "f 1 1 1"] {
        for text in [format!("{three}{face}"), format!("{face}\n{three}"), format!("{three}\n\n# c\n{face}\n\n")] {
            assert_eq!(counts(&text), Ok((3, 1)), "{text:?}");
        }
    }
}

#[test]
fn lines_of_another_form() {
    let lines = [
        "v", "v 1 2", "v 1 2 3 4", "v 1 2 3 # c", "f", "f 1 2", "f 1 2 3 4", "f 1 2 3 #", "V 1 2 3", "F 1 2 3", "v1 2 3", "v1 2 3 4", "vn 0 0 1", "vt 0 0", "vp 1 2 3",
        "o body", "g part", "s 1", "s off", "usemtl m", "mtllib m.mtl", "l 1 2", "p 1", "1 2 3", "-", "x # c", "v 1 2 +3", "v .5 0 0", "v 5. 0 0", "v -.5 0 0", "v - 0 0",
        "v -- 0 0", "v --1 0 0", "v 1- 0 0", "v . 0 0", "v -. 0 0", "v 1.2.3 0 0", "v 1..2 0 0", "v 1e5 0 0", "v 1E5 0 0", "v 0x1 0 0", "v nan 0 0", "v inf 0 0", "v 1,5 0 0",
        "v 1 2 3\t", "v\t1 2 3", "v 1\t2 3 4", "\tv 1 2 3", "\t", "v 1 2 3\r", "f 1 1 1\r", "\r", "\r# c", "\t# c", "v 1 2 3\0", "\0", "v 1 2 \u{b2}", "\u{feff}v 1 2 3", "f 0 1 2", "f 00 1 2",
        "f 1 1 0", "f -1 2 3", "f +1 2 3", "f 1/1 2/2 3/3", "f 1//1 2//2 3//3", "f 1.0 2 3", "f 1. 2 3", "f 1 2 x", "f 1e0 1 1", "f 1 2 0000000000000000", "f 0 1 1234567890123456",
        "v 1234567890123456 0 x", "v 1 2 3 1234567890123456", "x 1234567890123456", "f 1 1234567890123456", "v/1 2 3", "v#1 2 3", "f#", "v 1 2 3#",
    ];
    for line in lines {
        for text in [line.to_string(), format!("{TEXT}{line}\n"), format!("{line}\n{TEXT}"), format!("# c\n\n{line}\nx\n")] {
            assert_eq!(counts(&text), Err(21), "{text:?}");
        }
    }
    assert_eq!(counts(b"v 1 2 \xb2"), Err(21));
    assert_eq!(counts(TEXT.replace('\n', "\r\n")), Err(21));
    assert_eq!(counts(TEXT.replace('\n', "\r")), Err(21));
}

#[test]
fn more_than_15_digits() {
    let lines = [
        "v 0.000000000000001 0 0", "v 0000000000000001 0 0", "v 1.000000000000000 0 0", "v 0 -1234567890123456 0", "v 0 0 -0.1234567890123456", "v 0 0 0000000000000000",
        "f 1 2 0000000000000003", "f 1234567890123456 1 1", "f 1 1000000000000000 1", "v 12345678901234567890123456789012345678901234567890 0 0",
    ];
    for line in lines {
        for text in [line.to_string(), format!("{TEXT}{line}\n"), format!("{line}\n{TEXT}"), format!("{line}\nx\n")] {
            assert_eq!(counts(&text), Err(22), "{text:?}");
        }
    }
    for line in ["v 0.00000000000001 0 0", "v 000000000000001 0 0", "v -1.00000000000000 0 0", "v 0 0 000000000000000", "# 1234567890123456"] {
        assert!(counts(line).is_ok(), "{line:?}");
    }
}

#[test]
fn the_first_bad_line_decides_before_all_else() {
    assert_eq!(counts("v 1 2 0000000000000003\nv 1 2\n"), Err(22));
    assert_eq!(counts("v 1 2\nv 1 2 0000000000000003\n"), Err(21));
    // 3 and 4 of lines above, and lists without room
    for (line, number) in [("v 1 2", 21), ("v 1 2 0000000000000003", 22)] {
        let text = format!("v 2000000000 0 0\nf 9 9 9\n{line}");
        assert_eq!(counts(&text), Err(number));
        assert_eq!(read_obj_into(text.as_bytes(), &mut [], &mut []).map_err(Refusal::number), Err(number));
    }
    let many = "v 0 0 0\n".repeat(20_001);
    assert_eq!(counts(format!("{many}v 1")), Err(21));
    assert_eq!(counts(format!("{many}v 1 2 0000000000000003")), Err(22));
}

#[test]
fn values_are_the_nearest_doubles() {
    for (number, bits) in [("0", 0), ("-0", 1 << 63), ("-0.0", 1 << 63), ("-00", 1 << 63), ("0.1", 0x3fb999999999999a), ("1000000000.00000", 0x41cdcd6500000000)] {
        assert_eq!(value(number), bits, "{number}");
    }
    // one to fifteen digits, the point at each place and nowhere, against the standard library's reader
    let mut state: u64 = 1;
    for (count, point, turn) in (1..=15).flat_map(|n| (0..n).flat_map(move |p| (0..40).map(move |t| (n, p, t)))) {
        let mut number = String::from(if turn % 2 == 0 { "" } else { "-" });
        for i in 0..count {
            state = state.wrapping_mul(6364136223846793005).wrapping_add(1442695040888963407);
            // at most nine digits stand before the point, so that 3 refuses none
            let before = if point == 0 { count } else { point };
            number.push(if i + 9 < before { '0' } else { (b'0' + (state >> 33) as u8 % 10) as char });
            if i + 1 == point {
                number.push('.');
            }
        }
        assert_eq!(value(&number), number.parse::<f64>().unwrap().to_bits(), "{number}");
    }
}

#[test]
fn numbers_over_the_limit() {
    for line in ["v 999999999999999 0 0", "v 1000000000.00001 0 0", "v 0 -1000000001 0", "v 0 0 1000000000.00001"] {
        assert_eq!(counts(line), Err(3), "{line:?}");
    }
    for line in ["v 1000000000.00000 0 0", "v 0 -1000000000 0", "v 0 0 000001000000000"] {
        assert_eq!(counts(line), Ok((1, 0)), "{line:?}");
    }
    // before 4, also of a face above it
    assert_eq!(counts("f 9 9 9\nv 2000000000 0 0"), Err(3));
}

#[test]
fn faces_of_no_vertex() {
    let face = |text: &str| read_obj(text.as_bytes()).unwrap_err();
    assert_eq!(face("f 1 1 1"), Refusal::NoSuchVertex { face: 0 });
    for index in ["4", "4294967296", "4294967297", "4294967299", "8589934593", "18446744073709", "999999999999999"] {
        let text = format!("v 1 2 3\nv 1 2 3\nf 1 2 3\n\n# c\nf 2 {index} 1\nv 1 2 3\nf 5 5 5\n");
        assert_eq!(face(&text), Refusal::NoSuchVertex { face: 1 }, "{index}");
    }
}

#[test]
fn counts_at_their_limits() {
    let longest = ["v -999999999.99999 -1000000000.0000 0.00000000000001\n", "f 000000000020000 000000000000001 000000000019999\n"];
    let text = |v, f| longest[0].repeat(v) + &longest[1].repeat(f);
    let (verts, faces) = read_obj(text(20_000, 32_768).as_bytes()).unwrap();
    assert!(verts.len() == 20_000 && verts.iter().all(|&p| p == [-999999999.99999, -1e9, 1e-14]));
    assert!(faces.len() == 32_768 && faces.iter().all(|&f| f == [19_999, 0, 19_998]));
    assert_eq!(counts(text(20_001, 0)), Err(2));
    assert_eq!(counts(text(20_000, 32_769)), Err(2));
    // 2 goes before 12, 3 and 4
    assert_eq!(read_obj_into(text(20_001, 1).as_bytes(), &mut [], &mut []), Err(Refusal::TooMany));
    assert_eq!(counts("v 2000000000 0 0\n".repeat(20_001) + "f 30000 1 1"), Err(2));
    // long lines
    let long = "0".repeat(70_000);
    let cases = [(format!("#{long}"), Ok((0, 0))), (" ".repeat(70_000), Ok((0, 0))), (format!("v 1 2 {long}"), Err(22)), (format!("f 1 2 {long}"), Err(21)), (long, Err(21))];
    for (line, answer) in cases {
        assert_eq!(counts(&line), answer);
    }
}

/// What `physica_read_obj` leaves of lists of these lengths: the number, V and F, values, the lists.
fn lent(text: &str, v: usize, f: usize) -> (u32, [u32; 2], [u32; 2], Vec<f64>, Vec<u32>) {
    let (mut verts, mut faces, mut counts, mut values) = (vec![7.5; v], vec![77; f], [9; 2], [9; 2]);
    // SAFETY: the text and each list come with their own length, counts and values are as long as their types say.
    let n = unsafe { ffi::physica_read_obj(text.as_ptr(), text.len(), verts.as_mut_ptr(), v, faces.as_mut_ptr(), f, &mut counts, &mut values) };
    (n, counts, values, verts, faces)
}

#[test]
fn lent_lists() {
    let (verts, faces) = (VERTS.as_flattened(), FACES.as_flattened());
    let (n, counts, values, v, f) = lent(TEXT, 15, 13);
    assert_eq!((n, counts, values), (0, [4, 4], [0, 0]));
    assert_eq!((&v[..12], &v[12..], &f[..12], &f[12..]), (verts, &[7.5; 3][..], faces, &[77][..]));
    assert_eq!(lent(TEXT, 12, 12), (0, [4, 4], [0, 0], verts.to_vec(), faces.to_vec()));
    let refused = |text: &str, v, f, number, face| assert_eq!(lent(text, v, f), (number, [9, 9], [face, 0], vec![7.5; v], vec![77; f]), "{text:?}");
    for (v, f) in [(11, 12), (12, 11), (11, 11), (0, 12), (12, 0), (0, 0)] {
        refused(TEXT, v, f, 12, 0);
        // 12 goes before 3 and 4
        refused(&format!("v 2000000000 0 0\nf 9 9 9\n{TEXT}"), v + 3, f + 3, 12, 0);
    }
    refused(&format!("{TEXT}x"), 20, 20, 21, 0);
    refused(&format!("{TEXT}v 0 0 0000000000000000"), 20, 20, 22, 0);
    refused(&TEXT.replace("v 0 0 1", "v 0 0 1000000001"), 20, 20, 3, 0);
    refused(&TEXT.replace("f 2 3 4", "f 2 3 5"), 20, 20, 4, 3);
    refused(&"v 0 0 0\n".repeat(20_001), 20, 20, 2, 0);
    assert_eq!(lent("", 1, 1), (0, [0, 0], [0, 0], vec![7.5], vec![77]));
}

#[test]
fn a_mesh_is_read_and_checked() {
    let (verts, faces) = read_obj(TEXT.as_bytes()).unwrap();
    assert_eq!((&verts[..], &faces[..]), (&VERTS[..], &FACES[..]));
    assert_eq!(Mesh::new(&verts, &faces).unwrap().volume(), 1.0 / 6.0);
    // what is no closed mesh is read too
    let (verts, faces) = read_obj(TEXT.replace("f 2 3 4\n", "").as_bytes()).unwrap();
    assert_eq!(Mesh::new(&verts, &faces).unwrap_err(), Refusal::Open { from: 1, to: 3 });
}

#[test]
fn what_is_written() {
    assert_eq!(write_obj(&VERTS, &FACES).unwrap(), TEXT.as_bytes());
    assert_eq!(write_obj(&[], &[]).unwrap(), b"");
    let verts = [[-0.0, 0.0, -1.0], [1e9, -1e9, 999999999.0], [10.0, -100.0, 123456789.0]];
    assert_eq!(write_obj(&verts, &[[2, 1, 0]]).unwrap(), b"v -0 0 -1\nv 1000000000 -1000000000 999999999\nv 10 -100 123456789\nf 3 2 1\n");
}

#[test]
fn what_is_not_written() {
    for x in [0.5, -0.25, 1e-300, 5e-324, 1000000000.5, 1000000001.0, -1000000000.0000001, 1e300, f64::INFINITY, f64::NEG_INFINITY, f64::NAN] {
        assert_eq!(write_obj(&[[0.0, 1.0, x]], &[]), Err(Refusal::OutOfLimits), "{x}");
        // before 4 and 12
        assert_eq!(write_obj_into(&[[x, 0.0, 0.0]], &[[0, 0, 1]], &mut []), Err(Refusal::OutOfLimits), "{x}");
    }
    assert_eq!(write_obj_into(&VERTS, &[[0, 1, 2], [0, 1, 4], [9, 9, 9]], &mut []), Err(Refusal::NoSuchVertex { face: 1 }));
    assert_eq!(write_obj(&VERTS, &[[0, 1, u32::MAX]]), Err(Refusal::NoSuchVertex { face: 0 }));
    let (verts, faces) = (vec![[0.5; 3]; 20_001], vec![[9; 3]; 32_769]);
    assert_eq!(write_obj(&verts, &[]), Err(Refusal::TooMany));
    assert_eq!(write_obj_into(&verts, &[], &mut []), Err(Refusal::TooMany));
    assert_eq!(write_obj(&VERTS, &faces), Err(Refusal::TooMany));
}

/// What `physica_write_obj` leaves of a text of this length: the number, the size, values, the text.
fn lent_text(verts: &[f64], faces: &[u32], length: usize) -> (u32, usize, [u32; 2], Vec<u8>) {
    let (mut text, mut size, mut values) = (vec![b'?'; length], 7777, [9; 2]);
    // SAFETY: each list and the text come with their own length, values is as long as its type says.
    let n = unsafe { ffi::physica_write_obj(verts.as_ptr(), verts.len(), faces.as_ptr(), faces.len(), text.as_mut_ptr(), length, &mut size, &mut values) };
    (n, size, values, text)
}

#[test]
fn a_lent_text() {
    let (verts, faces) = (VERTS.as_flattened(), FACES.as_flattened());
    for more in [0, 1, 9] {
        let text = TEXT.to_string() + &"?".repeat(more);
        assert_eq!(lent_text(verts, faces, TEXT.len() + more), (0, TEXT.len(), [0, 0], text.into_bytes()));
    }
    let refused = |verts: &[f64], faces: &[u32], length, number, face| assert_eq!(lent_text(verts, faces, length), (number, 7777, [face, 0], vec![b'?'; length]));
    for length in [0, 1, 8, TEXT.len() - 1] {
        refused(verts, faces, length, 12, 0);
    }
    // 1 goes before all others
    refused(&verts[1..], faces, 99, 1, 0);
    refused(verts, &faces[2..], 99, 1, 0);
    refused(&[f64::NAN; 4], &[9; 4], 0, 1, 0);
    refused(&[f64::NAN; 3], &[9; 3], 0, 3, 0);
    refused(verts, &[0, 1, 2, 0, 1, 4], 99, 4, 1);
}

#[test]
fn what_is_written_is_read_as_it_was() {
    let mut state: u64 = 7;
    let mut next = |n: u64| {
        state = state.wrapping_mul(6364136223846793005).wrapping_add(1442695040888963407);
        (state >> 33) % n
    };
    for turn in 0..300 {
        let mut coordinate = || match next(8) {
            0 => -0.0,
            1 => 0.0,
            2 => 1e9,
            3 => -1e9,
            k => (next(10u64.pow(k as u32 + 2)) % 1_000_000_001) as f64 * if next(2) == 0 { 1.0 } else { -1.0 },
        };
        let verts: Vec<[f64; 3]> = (0..1 + turn % 17).map(|_| std::array::from_fn(|_| coordinate())).collect();
        let faces: Vec<[u32; 3]> = (0..turn % 13).map(|_| std::array::from_fn(|_| next(verts.len() as u64) as u32)).collect();
        let text = write_obj(&verts, &faces).unwrap();
        assert_eq!(text.iter().filter(|&&b| b == b'\n').count(), verts.len() + faces.len());
        let (read_verts, read_faces) = read_obj(&text).unwrap();
        assert_eq!((bits(&read_verts), read_faces), (bits(&verts), faces));
    }
    // the longest text: 38 bytes to a vertex and 20 to a face suffice, and are needed
    let (verts, faces) = (vec![[-1e9; 3]; 20_000], vec![[19_999; 3]; 32_768]);
    let text = write_obj(&verts, &faces).unwrap();
    assert_eq!(text.len(), 38 * 20_000 + 20 * 32_768);
    assert_eq!(read_obj(&text).unwrap(), (verts, faces));
}
