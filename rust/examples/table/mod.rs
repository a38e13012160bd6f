//! A sheet as text: the line of its check, and a line for each station.
use physica::{Accepted, Refusal, Sheet};
use std::io::{self, Write};

/// The potential V and its gradient g are at G·ρ = 1; B is the magnetic field, dF the total-field anomaly.
const NAMES: &str = "station,x[m],y[m],z[m],V[m^2],gx[m],gy[m],gz[m],Bx[T],By[T],Bz[T],dF[T]";

/// Prints the line that `recheck` prints and, if the sheet is accepted, each station with its row. True: it is accepted.
pub fn print(bytes: &[u8]) -> io::Result<bool> {
    let mut out = io::BufWriter::new(io::stdout().lock());
    let verdict = checked(bytes);
    match verdict {
        Ok((sheet, found)) => {
            writeln!(out, "accepted {} {}", found.kind, found.stations)?;
            print_rows(&mut out, sheet)?;
        }
        Err(refusal) => writeln!(out, "{refusal}")?,
    }
    out.flush()?;
    Ok(verdict.is_ok())
}

fn checked(bytes: &[u8]) -> Result<(Sheet<'_>, Accepted), Refusal> {
    let sheet = Sheet::open(bytes)?;
    Ok((sheet, sheet.check()?))
}

fn print_rows(out: &mut impl Write, sheet: Sheet) -> io::Result<()> {
    writeln!(out, "{NAMES}")?;
    for (i, (station, row)) in sheet.points().enumerate() {
        let numbers = [&station[..], &[row.potential], &row.gradient, &row.anomaly, &[row.total]].concat();
        let texts: Vec<String> = numbers.into_iter().map(scientific).collect();
        writeln!(out, "{i},{}", texts.join(","))?;
    }
    Ok(())
}

/// 17 digits, which tell every double, written as C's %.16e writes them.
pub fn scientific(x: f64) -> String {
    let text = format!("{x:.16e}");
    match text.split_once('e').and_then(|(digits, exponent)| Some((digits, exponent.parse::<i32>().ok()?))) {
        Some((digits, exponent)) => format!("{digits}e{exponent:+03}"),
        None => text,
    }
}
