//! Least times, and the test that only equal work is compared.

use std::time::Instant;

use oracle::source::take_lists;

/// Seconds of one measurement, about. It is short, so that on a busy machine some are not
/// interrupted.
const ONE: f64 = 2e-4;
/// Seconds in which a side is measured again and again.
const ALL: f64 = 0.5;

/// One way to do the work, into what is lent. It is called through a reference: unrolled into
/// several copies, one side would train the processor's branch prediction less than the other.
pub type Side<'a, T> = &'a dyn Fn(&mut T);

/// Results by their bits, every NaN as one.
pub trait Bits: Clone {
    fn bits(&self) -> Vec<u64>;
}

impl Bits for f32 {
    fn bits(&self) -> Vec<u64> {
        vec![if self.is_nan() { f32::NAN } else { *self }.to_bits() as u64]
    }
}

impl Bits for f64 {
    fn bits(&self) -> Vec<u64> {
        vec![if self.is_nan() { f64::NAN } else { *self }.to_bits()]
    }
}

impl<T: Bits> Bits for Vec<T> {
    fn bits(&self) -> Vec<u64> {
        self.iter().flat_map(Bits::bits).collect()
    }
}

impl<A: Bits, B: Bits> Bits for (A, B) {
    fn bits(&self) -> Vec<u64> {
        [self.0.bits(), self.1.bits()].concat()
    }
}

fn seconds(count: usize, pass: &mut dyn FnMut()) -> f64 {
    let start = Instant::now();
    for _ in 0..count {
        pass();
    }
    start.elapsed().as_secs_f64()
}

/// Passes of one measurement.
fn passes<T>(lent: &mut T, side: Side<T>) -> usize {
    let tries = (0..3).map(|_| seconds(1, &mut || side(lent)));
    let one = tries.fold(f64::INFINITY, f64::min);
    (ONE / one).ceil().max(1.0) as usize
}

/// The least seconds of a pass of each side. The sides take turns, so that none has the quiet
/// moments of the machine for itself; a pass ahead of each measurement is not counted.
pub fn least<T, const N: usize>(lent: &mut T, sides: [Side<T>; N]) -> [f64; N] {
    let counts = sides.map(|side| passes(lent, side));
    let mut least = [f64::INFINITY; N];
    let start = Instant::now();
    while start.elapsed().as_secs_f64() < ALL * N as f64 {
        for (i, side) in sides.iter().enumerate() {
            side(lent);
            let taken = seconds(counts[i], &mut || side(lent));
            least[i] = least[i].min(taken / counts[i] as f64);
            take_lists();
        }
    }
    least
}

/// The same, where the first two sides leave the same bits; else the run stops.
pub fn compared<T: Bits, const N: usize>(
    work: &str,
    lent: &mut T,
    sides: [Side<T>; N],
) -> [f64; N] {
    let (mut ours, mut theirs) = (lent.clone(), lent.clone());
    sides[0](&mut ours);
    sides[1](&mut theirs);
    assert!(ours.bits() == theirs.bits(), "{work}: results differ");
    least(lent, sides)
}
