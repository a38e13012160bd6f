//! Counts over their limits are refused before anything is allocated for them.
use physica::{profile, read_obj, write_obj, write_sheet, Body, Mesh, Refusal};
use std::alloc::{GlobalAlloc, Layout, System};
use std::cell::Cell;

thread_local! {
    /// The largest number of bytes that this thread asked for at once.
    static MOST: Cell<usize> = const { Cell::new(0) };
}

struct Watched;

// SAFETY: the system's allocator, with a note of the size.
unsafe impl GlobalAlloc for Watched {
    unsafe fn alloc(&self, layout: Layout) -> *mut u8 {
        MOST.set(MOST.get().max(layout.size()));
        System.alloc(layout)
    }

    unsafe fn dealloc(&self, at: *mut u8, layout: Layout) {
        System.dealloc(at, layout)
    }
}

#[global_allocator]
static WATCHED: Watched = Watched;

/// What the call answers, and the most that it allocated at once.
fn watched<T>(call: impl FnOnce() -> T) -> (T, usize) {
    MOST.set(0);
    let answer = call();
    (answer, MOST.get())
}

const VERTS: [[f64; 3]; 4] = [[0.0, 0.0, 0.0], [1.0, 0.0, 0.0], [0.0, 1.0, 0.0], [0.0, 0.0, 1.0]];
const FACES: [[u32; 3]; 4] = [[0, 2, 1], [0, 1, 3], [0, 3, 2], [1, 2, 3]];
const AMBIENT: [f64; 3] = [2e-5, 0.0, 4.5e-5];

#[test]
fn too_many_stations() {
    let stations = vec![[2.0, 0.25, 0.25]; 65_537];
    let body = Body::Mesh { verts: &VERTS, faces: &FACES };
    let mut mesh = Mesh::new(&VERTS, &FACES).unwrap();
    assert_eq!(watched(|| write_sheet(body, AMBIENT, AMBIENT, &stations)), (Err(Refusal::TooMany), 0));
    assert_eq!(watched(|| mesh.sheet(AMBIENT, AMBIENT, &stations)), (Err(Refusal::TooMany), 0));
    assert_eq!(watched(|| mesh.fields(&stations).unwrap_err().refusal), (Refusal::TooMany, 0));
    assert_eq!(watched(|| profile(&stations, &VERTS, &FACES, &mut [0; 12]).unwrap_err().refusal), (Refusal::TooMany, 0));
    // the sheet of one station is allocated, and the watch sees it
    assert_eq!(watched(|| mesh.sheet(AMBIENT, AMBIENT, &stations[..1]).unwrap().len()), (408, 408));
}

#[test]
fn too_many_vertices_or_faces() {
    let (verts, faces) = (vec![[0.5; 3]; 20_001], vec![[0, 1, 2]; 32_769]);
    assert_eq!(watched(|| Mesh::new(&verts, &FACES).unwrap_err()), (Refusal::TooMany, 0));
    assert_eq!(watched(|| Mesh::new(&VERTS, &faces).unwrap_err()), (Refusal::TooMany, 0));
    let body = Body::Mesh { verts: &VERTS, faces: &faces };
    assert_eq!(watched(|| write_sheet(body, AMBIENT, AMBIENT, &[])), (Err(Refusal::TooMany), 0));
    assert_eq!(watched(|| write_obj(&verts, &FACES)), (Err(Refusal::TooMany), 0));
    assert_eq!(watched(|| write_obj(&VERTS, &faces)), (Err(Refusal::TooMany), 0));
    // the work list of four faces is allocated, and the watch sees it
    assert_eq!(watched(|| Mesh::new(&VERTS, &FACES).unwrap().volume()), (1.0 / 6.0, 48));
}

#[test]
fn a_text_has_room_for_what_it_can_hold() {
    // 24 bytes to a vertex: no more than the limit of a long text, one line of a short one
    assert_eq!(watched(|| read_obj(&b"v 0 0 0\n".repeat(30_000))), (Err(Refusal::TooMany), 24 * 20_000));
    assert_eq!(watched(|| read_obj(b"v 0 0 0").unwrap()), ((vec![[0.0; 3]], vec![]), 24));
    assert_eq!(watched(|| read_obj(b"v 0 0").unwrap_err()), (Refusal::WrongLine, 0));
}
