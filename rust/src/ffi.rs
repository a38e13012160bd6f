//! The C functions of libphysica.a; `include/physica.h` says what each takes, returns and writes.

#[link(name = "physica", kind = "static")]
extern "C" {
    pub fn physica_version() -> u32;
    pub fn physica_carlson_rc(x: f64, y: f64, out: *mut f64) -> u32;
    pub fn physica_carlson_rf(x: f64, y: f64, z: f64, out: *mut f64) -> u32;
    pub fn physica_carlson_rd(x: f64, y: f64, z: f64, out: *mut f64) -> u32;
    pub fn physica_carlson_rj(x: f64, y: f64, z: f64, p: f64, out: *mut f64) -> u32;
    pub fn physica_complete_elliptic(m: f64, out: *mut [f64; 2]) -> u32;
    pub fn physica_cel(kc: f64, p: f64, a: f64, b: f64, out: *mut f64) -> u32;
    pub fn physica_ring(radius: f64, rho: f64, z: f64, out: *mut [f64; 3]) -> u32;
    pub fn physica_gauss_legendre(order: u32, nodes: *mut [f64; 16], weights: *mut [f64; 16]) -> u32;
    pub fn physica_prism(station: *const [f64; 3], min: *const [f64; 3], max: *const [f64; 3], out: *mut [f64; 13], values: *mut [u32; 2]) -> u32;
    pub fn physica_check_mesh(
        verts: *const f64, verts_len: usize, faces: *const u32, faces_len: usize, work: *mut u32, work_len: usize, out: *mut f64, values: *mut [u32; 2],
    ) -> u32;
    pub fn physica_polyhedron(
        station: *const [f64; 3], verts: *const f64, verts_len: usize, faces: *const u32, faces_len: usize, work: *mut u32, work_len: usize,
        out: *mut [f64; 13], values: *mut [u32; 2],
    ) -> u32;
    pub fn physica_profile(
        stations: *const f64, stations_len: usize, verts: *const f64, verts_len: usize, faces: *const u32, faces_len: usize, work: *mut u32, work_len: usize,
        fields: *mut f64, fields_len: usize, values: *mut [u32; 2],
    ) -> u32;
    pub fn physica_read_obj(
        text: *const u8, text_len: usize, verts: *mut f64, verts_len: usize, faces: *mut u32, faces_len: usize, counts: *mut [u32; 2], values: *mut [u32; 2],
    ) -> u32;
    pub fn physica_write_obj(
        verts: *const f64, verts_len: usize, faces: *const u32, faces_len: usize, text: *mut u8, text_len: usize, size: *mut usize, values: *mut [u32; 2],
    ) -> u32;
    pub fn physica_body(hessian: *const [f64; 9], magnetisation: *const [f64; 3], out: *mut [f64; 3]) -> u32;
    pub fn physica_total_field(ambient: *const [f64; 3], anomaly: *const [f64; 3], out: *mut f64) -> u32;
    pub fn physica_sphere(p: *const [f64; 3], centre: *const [f64; 3], radius: f64, magnetisation: *const [f64; 3], out: *mut [f64; 3]) -> u32;
    pub fn physica_cylinder(
        p: *const [f64; 3], point: *const [f64; 3], axis: *const [f64; 3], radius: f64, magnetisation: *const [f64; 3], out: *mut [f64; 3],
    ) -> u32;
    pub fn physica_ellipsoid_factors(a: f64, b: f64, c: f64, out: *mut [f64; 3]) -> u32;
    pub fn physica_magnetisation(chi: f64, h0: *const [f64; 3], remanent: *const [f64; 3], n: *const [f64; 9], out: *mut [f64; 3]) -> u32;
    pub fn physica_koenigsberger(remanent: *const [f64; 3], chi: f64, h0: *const [f64; 3], out: *mut f64) -> u32;
    pub fn physica_sheet_length(kind: u32, vertices: usize, faces: usize, stations: usize) -> usize;
    pub fn physica_write_sheet(
        kind: u32, verts: *const f64, verts_len: usize, faces: *const u32, faces_len: usize, magnetisation: *const [f64; 3], ambient: *const [f64; 3],
        stations: *const f64, stations_len: usize, work: *mut u32, work_len: usize, out: *mut u8, out_len: usize, size: *mut usize, values: *mut [u32; 2],
    ) -> u32;
    pub fn physica_check_sheet(sheet: *const u8, sheet_len: usize, found: *mut [u32; 2], values: *mut [u32; 2]) -> u32;
    pub fn physica_sheet_trailer(sheet: *const u8, sheet_len: usize, counts: *mut [u32; 4], numbers: *mut [f64; 7]) -> u32;
    pub fn physica_sheet_station(sheet: *const u8, sheet_len: usize, i: usize, out: *mut [f64; 3]) -> usize;
    pub fn physica_sheet_rows(sheet: *const u8, sheet_len: usize) -> usize;
    pub fn physica_sheet_row(sheet: *const u8, sheet_len: usize, i: usize, out: *mut [f64; 8]) -> usize;
}
