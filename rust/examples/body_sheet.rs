//! body_sheet BODY STATIONS SHEET: makes the sheet of a body of triangles, saves it, and prints it as check_sheet does.
//!
//! BODY and STATIONS are text: lines `v x y z`, a point in metres, and `f a b c`, a triangle of the points with these numbers, counted from 1 and
//! counter-clockwise seen from outside. examples/make_body.py makes both files.
//!
//! At the repository's root, after `sh tools/library.sh`:
//!   cargo run --offline --manifest-path rust/Cargo.toml --example body_sheet -- BODY STATIONS SHEET
use physica::{Mesh, Refusal, Vector};
use std::error::Error;
use std::fs;
use std::process::ExitCode;
use std::str::FromStr;

mod table;

const MAGNETISATION: Vector = [1.0, 2.0, -2.0]; // A/m
const AMBIENT: Vector = [2e-5, 0.0, 4.5e-5]; // T

#[derive(Default)]
struct Shape {
    points: Vec<Vector>,
    faces: Vec<[u32; 3]>,
}

fn three<T: FromStr>(words: &[&str]) -> Option<[T; 3]> {
    match words {
        [a, b, c] => Some([a.parse().ok()?, b.parse().ok()?, c.parse().ok()?]),
        _ => None,
    }
}

impl Shape {
    /// Adds a line; none where it is no such line.
    fn add(&mut self, line: &str) -> Option<()> {
        let words: Vec<&str> = line.split_whitespace().collect();
        match words.split_first() {
            Some((&"v", rest)) => self.points.push(three(rest)?),
            // the library counts from 0
            Some((&"f", rest)) => self.faces.push(three::<u32>(rest)?.map(|corner| corner.wrapping_sub(1))),
            Some((word, _)) if !word.starts_with('#') => return None,
            _ => (),
        }
        Some(())
    }

    fn read(name: &str) -> Result<Shape, Box<dyn Error>> {
        let text = fs::read_to_string(name).map_err(|error| format!("{name}: {error}"))?;
        let mut shape = Shape::default();
        for (i, line) in text.lines().enumerate() {
            shape.add(line).ok_or_else(|| format!("{name}, line {}: not `v x y z` or `f a b c`", i + 1))?;
        }
        Ok(shape)
    }
}

/// True: the sheet is accepted, as every sheet is that was made.
fn make(body: &str, stations: &str, name: &str) -> Result<bool, Box<dyn Error>> {
    let (body, stations) = (Shape::read(body)?, Shape::read(stations)?.points);
    let mut mesh = Mesh::new(&body.points, &body.faces)?;
    let sheet = mesh.sheet(MAGNETISATION, AMBIENT, &stations)?;
    fs::write(name, &sheet).map_err(|error| format!("{name}: {error}"))?;
    let (v, f, s) = (body.points.len(), body.faces.len(), stations.len());
    println!("{v} vertices, {f} faces, {s} stations, volume {} m^3", table::scientific(mesh.volume()));
    Ok(table::print(&sheet)?)
}

fn main() -> ExitCode {
    let words: Vec<String> = std::env::args().skip(1).collect();
    let [body, stations, name] = &words[..] else {
        eprintln!("usage: body_sheet BODY STATIONS SHEET");
        return ExitCode::from(2);
    };
    match make(body, stations, name) {
        Ok(accepted) => ExitCode::from(if accepted { 0 } else { 1 }),
        Err(error) if error.is::<Refusal>() => {
            println!("{error}");
            ExitCode::from(1)
        }
        Err(error) => {
            eprintln!("{error}");
            ExitCode::from(2)
        }
    }
}
