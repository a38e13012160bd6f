//! Compares the library's root with the processor's over many patterns, and times both in one program.
//! roots COUNT: COUNT patterns of each kind. Prints the numbers compared and differing, then nanoseconds a call.
use std::hint::black_box;
use std::time::Instant;

#[link(name = "test_exports", kind = "static")]
unsafe extern "C" {
    fn test_root(x: f64) -> f64;
}

fn root(x: f64) -> f64 {
    unsafe { test_root(x) }
}

/// Every NaN is the same.
fn same(x: f64, y: f64) -> bool {
    x.to_bits() == y.to_bits() || (x.is_nan() && y.is_nan())
}

struct Random(u64);
impl Random {
    fn next(&mut self) -> u64 {
        self.0 ^= self.0 << 13;
        self.0 ^= self.0 >> 7;
        self.0 ^= self.0 << 17;
        self.0
    }
}

const NORMAL: u64 = 0x7fe0_0000_0000_0000;

fn compare(count: u64) {
    let mut r = Random(0x9e37_79b9_7f4a_7c15);
    let kinds: [(&str, fn(&mut Random) -> u64); 5] = [
        ("any pattern", |r| r.next()),
        ("normal, above zero", |r| r.next() % NORMAL + 0x10_0000_0000_0000),
        ("subnormal", |r| r.next() >> (12 + r.next() % 52)),
        ("squares and their neighbours", |r| {
            let n = (r.next() >> 37) as f64;
            ((n * n).to_bits() + r.next() % 3).wrapping_sub(1)
        }),
        ("from 1 to 4", |r| 0x3ff0_0000_0000_0000 + (r.next() >> 11)),
    ];
    for (name, kind) in kinds {
        let differ = (0..count).filter(|_| { let x = f64::from_bits(kind(&mut r)); !same(root(x), x.sqrt()) }).count();
        println!("{name}: {count} compared, {differ} differ");
    }
}

/// The best of many turns, in nanoseconds a call: calls that do not wait for each other, and calls that do.
fn time(xs: &[f64], f: impl Fn(f64) -> f64, best: &mut [f64; 2]) {
    let reps = 10;
    let t = Instant::now();
    let mut a = 0.0;
    for _ in 0..reps { for &x in black_box(xs) { a += f(x); } }
    black_box(a);
    best[0] = best[0].min(t.elapsed().as_secs_f64() * 1e9 / (reps * xs.len()) as f64);
    let t = Instant::now();
    let mut a = 0.0;
    for _ in 0..reps { for &x in black_box(xs) { a = f(x + 0.0 * a); } }
    black_box(a);
    best[1] = best[1].min(t.elapsed().as_secs_f64() * 1e9 / (reps * xs.len()) as f64);
}

fn main() {
    let count = std::env::args().nth(1).map_or(10_000_000, |s| s.parse().unwrap());
    compare(count);
    let mut r = Random(0x2545_f491_4f6c_dd1d);
    let kinds: [(&str, Vec<f64>); 2] = [
        ("normal", (0..4096).map(|_| f64::from_bits(r.next() % NORMAL + 0x10_0000_0000_0000)).collect()),
        ("subnormal", (0..4096).map(|_| f64::from_bits(r.next() >> 12 | 1)).collect()),
    ];
    for (name, xs) in kinds {
        let (mut own, mut processor) = ([f64::MAX; 2], [f64::MAX; 2]);
        for _ in 0..200 {
            time(&xs, |x| black_box(x).sqrt(), &mut processor);
            time(&xs, root, &mut own);
        }
        println!("{name}: throughput {:.2} ns, processor {:.2} ns, ratio {:.2}; latency {:.2} ns, processor {:.2} ns, ratio {:.2}",
            own[0], processor[0], own[0] / processor[0], own[1], processor[1], own[1] / processor[1]);
    }
}
