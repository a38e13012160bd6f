use crate::{answer_with, ffi, Body, Refusal, Vector};

/// The limits of refusal 2.
const MOST_VERTICES: usize = 20_000;
const MOST_FACES: usize = 32_768;
/// The shortest line of a vertex or a face, `v 0 0 0`, with its newline, which the text's last line may lack.
const SHORTEST_LINE: usize = 8;
/// The longest lines that are written, with their newline: three numbers of a minus and ten digits, three vertices of five digits.
const VERTEX_LINE: usize = "v -1000000000 -1000000000 -1000000000\n".len();
const FACE_LINE: usize = "f 20000 20000 20000\n".len();

/// The mesh of a shape model's text, in a part of the Wavefront OBJ format: vertices, and faces as three vertex numbers each, counted from 0.
///
/// Lines are `v x y z`, with numbers such as `7`, `-0.25` and `007.50`, each read as the nearest double; `f a b c`, with vertices counted from 1; comments,
/// whose first field begins with `#`; and blank. Fields are separated by spaces alone. docs/FOR-AUTHORS.md says how other OBJ files are brought into this
/// form.
///
/// Refused by 21 (a line of another form) or 22 (more than 15 digits), by the first line that has either, then by 2, 3, 4, whose face is counted among the
/// lines `f`. The mesh is not checked: [`crate::Mesh::new`] does that. For a text of any length at most 0.9 MB are allocated.
///
/// ```
/// let text = b"# the tetrahedron of volume 1/6
/// v 0 0 0
/// v 1 0 0
/// v 0 1.0 0
/// v 0 0 1
///
/// f 1 3 2
/// f 1 2 4
/// f 1 4 3
/// f 2 3 4
/// ";
/// let (verts, faces) = physica::read_obj(text)?;
/// assert_eq!((verts[2], faces[0]), ([0.0, 1.0, 0.0], [0, 2, 1]));
/// assert_eq!(physica::Mesh::new(&verts, &faces)?.volume(), 1.0 / 6.0);
///
/// assert_eq!(physica::read_obj(b"v 0 0 0\nf 1/1 2/2 3/3\n"), Err(physica::Refusal::WrongLine));
/// # Ok::<(), physica::Refusal>(())
/// ```
pub fn read_obj(text: &[u8]) -> Result<(Vec<Vector>, Vec<[u32; 3]>), Refusal> {
    // no text has more lines than this, so that 12 is never given; what 2 refuses has no room
    let lines = (text.len() + 1) / SHORTEST_LINE;
    let (mut verts, mut faces) = (vec![[0.0; 3]; lines.min(MOST_VERTICES)], vec![[0; 3]; lines.min(MOST_FACES)]);
    let (v, f) = read_obj_into(text, &mut verts, &mut faces)?;
    verts.truncate(v);
    faces.truncate(f);
    Ok((verts, faces))
}

/// The same into lent room, of which 20,000 vertices and 32,768 faces always suffice. Answers how many vertices and faces the text has; the lists begin with
/// these and are as they were past them. Refused by 12 too, after 2; under a refusal the lists are as they were.
pub fn read_obj_into(text: &[u8], verts: &mut [Vector], faces: &mut [[u32; 3]]) -> Result<(usize, usize), Refusal> {
    let (v, f) = (verts.as_flattened_mut(), faces.as_flattened_mut());
    let (mut counts, mut values) = ([0; 2], [0; 2]);
    // SAFETY: the text and each list come with their own length, and nothing else holds the lists, counts and values.
    let n = unsafe {
        ffi::physica_read_obj(text.as_ptr(), text.len(), v.as_mut_ptr(), v.len(), f.as_mut_ptr(), f.len(), &mut counts, &mut values)
    };
    answer_with(n, (counts[0] as usize, counts[1] as usize), values)
}

/// The text of a mesh whose coordinates are whole numbers: a line `v x y z` for each vertex, then a line `f a b c` for each face, with vertices counted
/// from 1. [`read_obj`] gives the same mesh again, bit for bit; −0 is written as `-0`.
///
/// Refused by 2, before anything is allocated, by 3, also for a coordinate that is not whole, and by 4. The mesh is not checked.
///
/// ```
/// let (verts, faces) = ([[7.0, -0.0, -1e9]], [[0, 0, 0]]);
/// let text = physica::write_obj(&verts, &faces)?;
/// assert_eq!(text, b"v 7 -0 -1000000000\nf 1 1 1\n");
/// assert_eq!(physica::read_obj(&text)?, (verts.to_vec(), faces.to_vec()));
///
/// assert_eq!(physica::write_obj(&[[0.5, 0.0, 0.0]], &[]), Err(physica::Refusal::OutOfLimits));
/// # Ok::<(), physica::Refusal>(())
/// ```
pub fn write_obj(verts: &[Vector], faces: &[[u32; 3]]) -> Result<Vec<u8>, Refusal> {
    // refused by 2 alone
    Body::Mesh { verts, faces }.sheet_length(0)?;
    let mut text = vec![0; VERTEX_LINE * verts.len() + FACE_LINE * faces.len()];
    let size = write_obj_into(verts, faces, &mut text)?;
    text.truncate(size);
    Ok(text)
}

/// The same into lent room, of which 38 bytes to a vertex and 20 to a face always suffice. Answers the text's length. Refused by 12 too, after all others;
/// under a refusal `text` is as it was, and its bytes past what is written never change.
pub fn write_obj_into(verts: &[Vector], faces: &[[u32; 3]], text: &mut [u8]) -> Result<usize, Refusal> {
    let (v, f) = (verts.as_flattened(), faces.as_flattened());
    let (mut size, mut values) = (0, [0; 2]);
    // SAFETY: each list and the text come with their own length, and nothing else holds text, size and values.
    let n = unsafe { ffi::physica_write_obj(v.as_ptr(), v.len(), f.as_ptr(), f.len(), text.as_mut_ptr(), text.len(), &mut size, &mut values) };
    answer_with(n, size, values)
}
