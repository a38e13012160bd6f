use crate::sheets::TRAILER_BYTES;
use crate::{answer, check_sheet, ffi, Accepted, Refusal, Vector};
use std::iter::FusedIterator;
use std::ops::Range;

/// The row of a station.
///
/// | numbers | what | unit | times G·ρ | sign and meaning |
/// |---|---|---|---|---|
/// | `potential` | V | m² | m²/s² | V > 0: the integral of 1/r over the body |
/// | `gradient` | gradient of V | m | m/s² | the attraction is +gradient |
/// | `anomaly` | magnetic field B of the body | T | stays | B inside the body too: μ₀(H + M), not μ₀H |
/// | `total` | total-field anomaly \|F + B\| − \|F\| | T | stays | F is the ambient field; below 0 where B weakens it |
///
/// The first two are at G·ρ = 1; a sheet has no density. Not exhaustive: rows of later kinds have further numbers behind these eight.
#[derive(Clone, Copy, Debug, PartialEq)]
#[non_exhaustive]
pub struct Row {
    pub potential: f64,
    pub gradient: Vector,
    /// The magnetic field of the body.
    pub anomaly: Vector,
    /// The total-field anomaly.
    pub total: f64,
}

/// What a sheet's trailer holds. Not exhaustive: later kinds may hold more.
#[derive(Clone, Copy, Debug, PartialEq)]
#[non_exhaustive]
pub struct Trailer {
    /// 1: a mesh; 2: a prism.
    pub kind: u32,
    pub vertices: u32,
    pub faces: u32,
    pub stations: u32,
    /// A/m
    pub magnetisation: Vector,
    /// T
    pub ambient: Vector,
    /// m³
    pub volume: f64,
}

/// The numbers that a row of any kind begins with.
const ROW_NUMBERS: usize = 8;
const STATION_NUMBERS: usize = 3;

/// A sheet whose length fits its counts, to be read part by part.
///
/// Opening it is not checking it: the parts are read as they stand, and [`Sheet::check`] tells whether they are right.
///
/// ```
/// use physica::{write_sheet, Body, Sheet};
/// let cube = Body::Prism { min: [0.0; 3], max: [1.0; 3] };
/// let bytes = write_sheet(cube, [1.0, 2.0, -2.0], [2e-5, 0.0, 4.5e-5], &[[3.0, 0.0, 0.0], [0.0, 9.0, 0.0]])?;
///
/// let sheet = Sheet::open(&bytes)?;
/// sheet.check()?;
/// assert_eq!((sheet.trailer().kind, sheet.trailer().volume), (2, 1.0));
/// for (station, row) in sheet.points() {
///     println!("{station:?}: {} m², {} nT", row.potential, 1e9 * row.total);
/// }
/// # Ok::<(), physica::Refusal>(())
/// ```
#[derive(Clone, Copy, Debug)]
pub struct Sheet<'a> {
    bytes: &'a [u8],
    trailer: Trailer,
}

impl<'a> Sheet<'a> {
    /// Reads the trailer alone. Refused by 16, 1, 2.
    pub fn open(bytes: &'a [u8]) -> Result<Sheet<'a>, Refusal> {
        Ok(Sheet { bytes, trailer: sheet_trailer(bytes)? })
    }

    /// [`check_sheet`]: is every byte what the definitions give?
    pub fn check(&self) -> Result<Accepted, Refusal> {
        check_sheet(self.bytes)
    }

    pub fn bytes(&self) -> &'a [u8] {
        self.bytes
    }

    /// Kind, counts, magnetisation, ambient field and volume.
    pub fn trailer(&self) -> Trailer {
        self.trailer
    }

    pub fn stations(&self) -> Stations<'a> {
        Stations { sheet: self.bytes, left: 0..self.trailer.stations as usize }
    }

    pub fn rows(&self) -> Rows<'a> {
        Rows { sheet: self.bytes, left: 0..self.trailer.stations as usize }
    }

    /// Each station with its row.
    pub fn points(&self) -> impl ExactSizeIterator<Item = (Vector, Row)> + Clone + 'a {
        self.stations().zip(self.rows())
    }
}

/// What the trailer holds. Refused by 16, 1, 2. It does not check the sheet.
pub fn sheet_trailer(sheet: &[u8]) -> Result<Trailer, Refusal> {
    let (mut counts, mut numbers) = ([0; 4], [0.0; 7]);
    // SAFETY: the sheet comes with its length, and nothing else holds counts and numbers.
    let n = unsafe { ffi::physica_sheet_trailer(sheet.as_ptr(), sheet.len(), &mut counts, &mut numbers) };
    let [kind, vertices, faces, stations] = counts;
    let [mx, my, mz, fx, fy, fz, volume] = numbers;
    answer(n, Trailer { kind, vertices, faces, stations, magnetisation: [mx, my, mz], ambient: [fx, fy, fz], volume })
}

/// The coordinates of station `i`; none past the last, or where 16, 1 or 2 refuses the sheet. It does not check the sheet.
pub fn sheet_station(sheet: &[u8], i: usize) -> Option<Vector> {
    let mut out = [0.0; STATION_NUMBERS];
    // SAFETY: the sheet comes with its length; out is a station's numbers, which nothing else holds.
    let n = unsafe { ffi::physica_sheet_station(sheet.as_ptr(), sheet.len(), i, &mut out) };
    (n == STATION_NUMBERS).then_some(out)
}

/// The bytes of the rows, 64 to a station; none where 16, 1 or 2 refuses the sheet. It does not check the sheet.
pub fn sheet_rows(sheet: &[u8]) -> &[u8] {
    // SAFETY: the sheet comes with its length.
    let rows = unsafe { ffi::physica_sheet_rows(sheet.as_ptr(), sheet.len()) };
    let end = sheet.len().saturating_sub(TRAILER_BYTES);
    &sheet[end.saturating_sub(rows)..end]
}

/// Row `i`; none past the last, or where 16, 1 or 2 refuses the sheet. It does not check the sheet.
pub fn sheet_row(sheet: &[u8], i: usize) -> Option<Row> {
    let mut out = [0.0; ROW_NUMBERS];
    // SAFETY: the sheet comes with its length; out is a row's numbers, which nothing else holds.
    let n = unsafe { ffi::physica_sheet_row(sheet.as_ptr(), sheet.len(), i, &mut out) };
    let [potential, x, y, z, bx, by, bz, total] = out;
    (n == ROW_NUMBERS).then_some(Row { potential, gradient: [x, y, z], anomaly: [bx, by, bz], total })
}

/// A sheet's stations, one after the other.
#[derive(Clone, Debug)]
pub struct Stations<'a> {
    sheet: &'a [u8],
    left: Range<usize>,
}

impl Iterator for Stations<'_> {
    type Item = Vector;

    fn next(&mut self) -> Option<Vector> {
        sheet_station(self.sheet, self.left.next()?)
    }

    fn size_hint(&self) -> (usize, Option<usize>) {
        self.left.size_hint()
    }
}

impl ExactSizeIterator for Stations<'_> {}
impl FusedIterator for Stations<'_> {}

/// A sheet's rows, one after the other.
#[derive(Clone, Debug)]
pub struct Rows<'a> {
    sheet: &'a [u8],
    left: Range<usize>,
}

impl<'a> Rows<'a> {
    /// The rows of a sheet; none where 16, 1 or 2 refuses it.
    pub fn of(sheet: &'a [u8]) -> Rows<'a> {
        let stations = sheet_trailer(sheet).map_or(0, |trailer| trailer.stations as usize);
        Rows { sheet, left: 0..stations }
    }
}

impl Iterator for Rows<'_> {
    type Item = Row;

    fn next(&mut self) -> Option<Row> {
        sheet_row(self.sheet, self.left.next()?)
    }

    fn size_hint(&self) -> (usize, Option<usize>) {
        self.left.size_hint()
    }
}

impl ExactSizeIterator for Rows<'_> {}
impl FusedIterator for Rows<'_> {}
