use crate::{check_mesh, polyhedron, profile, write_sheet_into, Body, Newtonian, ProfileError, Refusal, Vector};

/// A closed mesh of triangles, wound outwards: checked once, and with the work list that the library is lent.
///
/// After [`Mesh::new`] a call is refused for its stations, magnetisation or ambient field alone. The library itself keeps nothing between calls and checks
/// the mesh again at each: some fifth of the time of a [`Mesh::field`] near the body, a hundredth far from it (docs/PERFORMANCE.md). [`Mesh::fields`] and
/// [`Mesh::sheet`] have one check for all their stations, and walk the faces once for eight of them.
///
/// A call writes the work list, so it takes `&mut self`; another thread takes a clone, which checks nothing.
///
/// ```
/// let verts = [[0.0, 0.0, 0.0], [1.0, 0.0, 0.0], [0.0, 1.0, 0.0], [0.0, 0.0, 1.0]];
/// let faces = [[0, 2, 1], [0, 1, 3], [0, 3, 2], [1, 2, 3]];
/// let mut mesh = physica::Mesh::new(&verts, &faces)?;
/// assert_eq!(mesh.volume(), 1.0 / 6.0);
///
/// let stations = [[4.0, 0.25, 0.25], [5.0, 0.25, 0.25]];
/// let fields = mesh.fields(&stations)?;
/// assert_eq!(fields[1], mesh.field(stations[1])?);
///
/// let sheet = mesh.sheet([1.0, 2.0, -2.0], [2e-5, 0.0, 4.5e-5], &stations)?;
/// assert!(physica::check_sheet(&sheet).is_ok());
/// # Ok::<(), Box<dyn std::error::Error>>(())
/// ```
#[derive(Clone, Debug)]
pub struct Mesh<'a> {
    verts: &'a [Vector],
    faces: &'a [[u32; 3]],
    /// Three entries to a face; after the check the order list, which every later call writes again.
    work: Vec<u32>,
    volume: f64,
}

impl<'a> Mesh<'a> {
    /// Checks the mesh. Refused by 2, before anything is allocated, by 3, 4, 5, 6, 7, 8.
    pub fn new(verts: &'a [Vector], faces: &'a [[u32; 3]]) -> Result<Mesh<'a>, Refusal> {
        Body::Mesh { verts, faces }.sheet_length(0)?;
        let mut work = vec![0; 3 * faces.len()];
        let volume = check_mesh(verts, faces, &mut work)?;
        Ok(Mesh { verts, faces, work, volume })
    }

    pub fn verts(&self) -> &'a [Vector] {
        self.verts
    }

    pub fn faces(&self) -> &'a [[u32; 3]] {
        self.faces
    }

    /// The enclosed volume (m³), as computed by the check.
    pub fn volume(&self) -> f64 {
        self.volume
    }

    /// The field at a station, by [`polyhedron`]. Refused by 3, 11.
    pub fn field(&mut self, station: Vector) -> Result<Newtonian, Refusal> {
        polyhedron(station, self.verts, self.faces, &mut self.work)
    }

    /// The field at each of the stations, by [`profile`]: bit for bit what [`Mesh::field`] gives there. Refused by 2, 3, then station by station 11.
    pub fn fields(&mut self, stations: &[Vector]) -> Result<Vec<Newtonian>, ProfileError> {
        profile(stations, self.verts, self.faces, &mut self.work)
    }

    /// The sheet of the mesh and the stations, as [`crate::write_sheet`] makes it. Refused by 2, before anything is allocated, by 3, then station by station
    /// 11, 13.
    pub fn sheet(&mut self, magnetisation: Vector, ambient: Vector, stations: &[Vector]) -> Result<Vec<u8>, Refusal> {
        let body = Body::Mesh { verts: self.verts, faces: self.faces };
        let mut out = vec![0; body.sheet_length(stations.len())?];
        write_sheet_into(body, magnetisation, ambient, stations, &mut self.work, &mut out)?;
        Ok(out)
    }
}
