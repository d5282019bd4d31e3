//! What changes where subnormals are flushed to zero, as audio hosts set it in their threads:
//! FTZ and DAZ of the processor's MXCSR. For docs/EMBEDDING.md; nothing is expected of it.

use std::arch::asm;

use driver::boundary::{self, Record};
use oracle::random::Random;
use oracle::random_layouts::draw;

use crate::layouts::asked;

/// FTZ, bit 15, and DAZ, bit 6. Origin: the x86-64 manual, "MXCSR".
const FLUSH: u32 = 0x8040;

/// What `work` answers with both set.
fn flushed<T>(work: impl FnOnce() -> T) -> T {
    let mut before: u32 = 0;
    let mut after: u32 = 0;
    // SAFETY: both instructions only move the control word, and what stood there comes back.
    unsafe { asm!("stmxcsr [{}]", in(reg) &raw mut before) };
    let set = before | FLUSH;
    unsafe { asm!("ldmxcsr [{}]", in(reg) &raw const set) };
    let answer = work();
    unsafe { asm!("stmxcsr [{}]", in(reg) &raw mut after) };
    let back = after & !FLUSH;
    unsafe { asm!("ldmxcsr [{}]", in(reg) &raw const back) };
    answer
}

fn made(numbers: &[f32], lfe: &[usize]) -> (u32, Record) {
    let (mut r, mut imaginary) = (Record::empty(), 0);
    (boundary::new(numbers, lfe, &mut imaginary, &mut r), r)
}

fn bits(floats: &[f32]) -> Vec<u32> {
    floats.iter().map(|x| x.to_bits()).collect()
}

/// Layouts counted: accepted ones, those with another number or record, those with a row of other
/// bits, and the greatest difference of a gain.
#[derive(Default)]
pub struct Told {
    pub layouts: u64,
    pub records: u64,
    pub rows: u64,
    pub most: f32,
}

/// So many accepted layouts of a seed, each with its directions, special ones among them.
pub fn told(r: &mut Random, count: u64) -> Told {
    let mut t = Told::default();
    while t.layouts < count {
        let layout = draw(r);
        let given = layout.opened();
        if given.refusal != 0 {
            continue;
        }
        t.layouts += 1;
        let (numbers, lfe) = (&layout.numbers[..], &layout.lfe[..]);
        let (plain, record) = made(numbers, lfe);
        let (other, other_record) = flushed(|| made(numbers, lfe));
        let same = bits(&record.floats) == bits(&other_record.floats);
        if plain != other || record.bytes != other_record.bytes || !same {
            t.records += 1;
        }
        let mut rows = false;
        for call in asked(r, &given.panner, numbers) {
            let mut row = vec![0.0; call.length];
            let mut other = row.clone();
            boundary::gains(&record, call.az, call.el, &mut row);
            flushed(|| boundary::gains(&record, call.az, call.el, &mut other));
            if bits(&row) != bits(&other) {
                rows = true;
                let off = row.iter().zip(&other).map(|(a, b)| (a - b).abs());
                t.most = off.fold(t.most, f32::max);
            }
        }
        t.rows += u64::from(rows);
    }
    t
}
