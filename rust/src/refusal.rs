use std::fmt;

/// Why a call gave no answer: one case for each number, with the values that come with it.
///
/// Not exhaustive, because later versions of the library have further numbers: a `match` needs a case for the rest. What has no case in this version
/// is [`Refusal::Other`], so that a newer `libphysica.a` is no cause of a panic. To tell a number that has no case, compare [`Refusal::number`] and not
/// `Other`: a later version may give it a case.
///
/// As text it is the line that the program `recheck` prints, and the sentence of docs/FOR-READERS.md.
///
/// ```
/// let refusal = physica::carlson_rf(0.0, 0.0, 0.0).unwrap_err();
/// assert_eq!(refusal, physica::Refusal::OutsideDomain);
/// assert_eq!(refusal.number(), 14);
/// assert_eq!(refusal.to_string(), "refused 14 0: outside the call's domain");
/// ```
#[derive(Clone, Copy, Debug, PartialEq, Eq, Hash)]
#[non_exhaustive]
pub enum Refusal {
    /// 1: a list's length, or the kind of body
    Malformed,
    /// 2: over 20,000 vertices, 32,768 faces or 65,536 stations
    TooMany,
    /// 3: a number that is not finite, or of magnitude over 10⁹; of [`crate::write_obj`] also one that is not whole
    OutOfLimits,
    /// 4: a face index of no vertex
    NoSuchVertex { face: u32 },
    /// 5: an edge that occurs twice, the smallest
    Flipped { from: u32, to: u32 },
    /// 6: an edge whose reverse does not occur, the smallest
    Open { from: u32, to: u32 },
    /// 7: the first face whose computed normal is zero
    Degenerate { face: u32 },
    /// 8: the computed volume is not above zero
    Inverted,
    /// 9: a prism's side below 10⁻⁶
    TooThin,
    /// 10: the field would take a 33rd bisection
    TooDeep { station: u32 },
    /// 11: a 65th edge through the station
    TooManyEdges { station: u32 },
    /// 12: a lent list is too short
    TooShort,
    /// 13: the computed row is not finite
    NotFinite { station: u32 },
    /// 14: outside the call's domain
    OutsideDomain,
    /// 15: Carlson's loop has not ended after 64 rounds
    TooManyRounds,
    /// 16: a sheet's length or its pointer
    WrongLength,
    /// 17: a sheet's order list
    WrongOrder,
    /// 18: a sheet's mates
    WrongMate,
    /// 19: a sheet's volume
    WrongVolume,
    /// 20: a sheet's row
    WrongRow { station: u32 },
    /// 21: a line of a shape model's text that is of no form that is read
    WrongLine,
    /// 22: a number or an index of more than 15 digits in a shape model's text
    TooManyDigits,
    /// a number of a newer library
    Other(u32),
}

impl Refusal {
    pub(crate) fn of(number: u32, [a, b]: [u32; 2]) -> Refusal {
        match number {
            1 => Refusal::Malformed,
            2 => Refusal::TooMany,
            3 => Refusal::OutOfLimits,
            4 => Refusal::NoSuchVertex { face: a },
            5 => Refusal::Flipped { from: a, to: b },
            6 => Refusal::Open { from: a, to: b },
            7 => Refusal::Degenerate { face: a },
            8 => Refusal::Inverted,
            9 => Refusal::TooThin,
            10 => Refusal::TooDeep { station: a },
            11 => Refusal::TooManyEdges { station: a },
            12 => Refusal::TooShort,
            13 => Refusal::NotFinite { station: a },
            14 => Refusal::OutsideDomain,
            15 => Refusal::TooManyRounds,
            16 => Refusal::WrongLength,
            17 => Refusal::WrongOrder,
            18 => Refusal::WrongMate,
            19 => Refusal::WrongVolume,
            20 => Refusal::WrongRow { station: a },
            21 => Refusal::WrongLine,
            22 => Refusal::TooManyDigits,
            _ => Refusal::Other(number),
        }
    }

    /// The refusal's number, as include/physica.h and docs/FOR-READERS.md have it.
    pub fn number(self) -> u32 {
        match self {
            Refusal::Malformed => 1,
            Refusal::TooMany => 2,
            Refusal::OutOfLimits => 3,
            Refusal::NoSuchVertex { .. } => 4,
            Refusal::Flipped { .. } => 5,
            Refusal::Open { .. } => 6,
            Refusal::Degenerate { .. } => 7,
            Refusal::Inverted => 8,
            Refusal::TooThin => 9,
            Refusal::TooDeep { .. } => 10,
            Refusal::TooManyEdges { .. } => 11,
            Refusal::TooShort => 12,
            Refusal::NotFinite { .. } => 13,
            Refusal::OutsideDomain => 14,
            Refusal::TooManyRounds => 15,
            Refusal::WrongLength => 16,
            Refusal::WrongOrder => 17,
            Refusal::WrongMate => 18,
            Refusal::WrongVolume => 19,
            Refusal::WrongRow { .. } => 20,
            Refusal::WrongLine => 21,
            Refusal::TooManyDigits => 22,
            Refusal::Other(number) => number,
        }
    }

    /// The place that the program `recheck` prints: the face or the station, else 0.
    pub fn place(self) -> u32 {
        match self {
            Refusal::NoSuchVertex { face } | Refusal::Degenerate { face } => face,
            Refusal::TooDeep { station } | Refusal::TooManyEdges { station } | Refusal::NotFinite { station } | Refusal::WrongRow { station } => station,
            _ => 0,
        }
    }
}

impl fmt::Display for Refusal {
    fn fmt(&self, f: &mut fmt::Formatter<'_>) -> fmt::Result {
        write!(f, "refused {} {}: ", self.number(), self.place())?;
        match *self {
            Refusal::Malformed => f.write_str("the kind is not 1 or 2, or a prism has other than two corners, or a list's length is no multiple of 3"),
            Refusal::TooMany => f.write_str("too many vertices (20,000), faces (32,768) or stations (65,536)"),
            Refusal::OutOfLimits => f.write_str(
                "a number such as a coordinate, the magnetisation or the ambient field is not finite, or over 10^9; or a coordinate to be written as OBJ is \
                 not whole",
            ),
            Refusal::NoSuchVertex { face } => write!(f, "the face {face} names a vertex that is not there"),
            Refusal::Flipped { from, to } => write!(f, "the edge from {from} to {to} occurs twice"),
            Refusal::Open { from, to } => write!(f, "the edge from {from} to {to} has no reverse"),
            Refusal::Degenerate { face } => write!(f, "the face {face} has no area"),
            Refusal::Inverted => f.write_str("the volume is not above zero"),
            Refusal::TooThin => f.write_str("a side of the prism is below 10^-6, or min and max are exchanged"),
            Refusal::TooDeep { station } | Refusal::TooManyEdges { station } => {
                write!(f, "the field at station {station} cannot be computed within the limits (32 bisections of a prism; 64 edges through a station)")
            }
            Refusal::TooShort => f.write_str("a lent list is too short"),
            Refusal::NotFinite { station } => write!(
                f,
                "the computed row at station {station} is infinite or no number, as at an edge of the body, or where the ambient field and the body's are \
                 both zero"
            ),
            Refusal::OutsideDomain => f.write_str("outside the call's domain"),
            Refusal::TooManyRounds => f.write_str("Carlson's loop has not ended after 64 rounds"),
            Refusal::WrongLength => f.write_str("the length, or the pointer at the end, does not fit the counts"),
            Refusal::WrongOrder => f.write_str("the order list is not that of the faces: it is wrong, or an edge occurs twice"),
            Refusal::WrongMate => f.write_str("a mate is not the reverse edge: it is wrong, or the mesh is open"),
            Refusal::WrongVolume => f.write_str("the stored volume is not the mesh's"),
            Refusal::WrongRow { station } => write!(f, "the row of station {station} is not what the formulas give"),
            Refusal::WrongLine => f.write_str("a line of the text is not `v` and three numbers, `f` and three indices from 1, a comment or blank"),
            Refusal::TooManyDigits => f.write_str("a number or an index of the text has more than 15 digits"),
            Refusal::Other(_) => f.write_str("a refusal of a newer version"),
        }
    }
}

impl std::error::Error for Refusal {}

#[cfg(test)]
mod tests {
    use super::Refusal;

    /// The last number of this version.
    const LAST: u32 = 22;

    /// A file of the repository.
    fn text_of(name: &str) -> String {
        std::fs::read_to_string(concat!(env!("CARGO_MANIFEST_DIR"), "/../").to_string() + name).unwrap()
    }

    /// What stands behind the line of a refusal, with # for each of its values.
    fn sentence(number: u32) -> String {
        let text = Refusal::of(number, [10007, 10009]).to_string();
        text.split_once(": ").unwrap().1.replace("10007", "#").replace("10009", "#")
    }

    #[test]
    fn each_number_has_its_case() {
        for n in 1..=LAST {
            let r = Refusal::of(n, [7, 9]);
            assert_eq!(r.number(), n);
            assert!(!matches!(r, Refusal::Other(_)));
            assert_eq!(r.place(), if [4, 7, 10, 11, 13, 20].contains(&n) { 7 } else { 0 });
            assert!(r.to_string().starts_with(&format!("refused {n} {}: ", r.place())));
        }
    }

    #[test]
    fn a_number_of_a_newer_library_is_kept() {
        for n in [0, LAST + 1, 26, u32::MAX] {
            let r = Refusal::of(n, [7, 9]);
            assert_eq!(r, Refusal::Other(n));
            assert_eq!((r.number(), r.place()), (n, 0));
            assert_eq!(r.to_string(), format!("refused {n} 0: a refusal of a newer version"));
        }
    }

    /// The numbers of a row of the table of docs/FOR-READERS.md, and what is wrong; none of any other line.
    fn told(line: &str) -> Vec<(u32, &str)> {
        match line.split('|').map(str::trim).collect::<Vec<_>>()[..] {
            ["", numbers, wrong, _, ""] => numbers.split(", ").filter_map(|n| Some((n.parse().ok()?, wrong))).collect(),
            _ => vec![],
        }
    }

    /// Of the table's sentence and this one's, one is a part of the other: the table has words on `recheck` alone, this one on calls without a sheet.
    #[test]
    fn sentences_are_those_for_readers() {
        let page = text_of("docs/FOR-READERS.md").replace("10⁻⁶", "10^-6").replace("10⁹", "10^9").replace("PLACE", "#");
        let table: Vec<_> = page.lines().flat_map(told).collect();
        assert_eq!(table.len(), 15);
        for (number, wrong) in table {
            let ours = sentence(number);
            assert!(wrong.contains(&ours) || ours.contains(wrong), "{number}: {ours} | {wrong}");
        }
    }

    /// The quoted texts of the lines that end in one and a comma.
    fn quoted(text: &str) -> Vec<&str> {
        text.lines().filter_map(|line| Some(line.strip_suffix("\",")?.split_once('"')?.1)).collect()
    }

    /// The C header and the Python module of examples/ have a line for each number, in order.
    #[test]
    fn sentences_of_the_examples_are_these() {
        let sentences: Vec<String> = (1..=LAST).map(sentence).collect();
        assert_eq!(quoted(&text_of("examples/refusals.h")), sentences);
        assert_eq!(quoted(&text_of("examples/refusals.py")), sentences);
    }
}
