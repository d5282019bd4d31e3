//! Lines of the lists of rows: a layout or a record, then what `gains` and `num_outputs` give.

use crate::layout_line::{Layout, Words};
use crate::layouts::triples;
use crate::record::Panner;
use crate::source::vbap_standins::VbapPanner;
use std::collections::HashSet;

/// What place i of a buffer holds before the call: the float with these bits and i more.
pub const BEFORE: u32 = 0x4e00_0000;
/// No buffer is longer, whatever outputs a record names: 40 outputs and three places.
pub const MAX_LENGTH: usize = 43;

/// A direction, and the length of the buffer that the row goes into.
#[derive(Clone, Copy, Debug)]
pub struct Call {
    pub az: f32,
    pub el: f32,
    pub length: usize,
}

/// What rows are asked of: the line that sets it, its record, and the source's panner; none
/// where the record is malformed.
pub struct Subject {
    line: String,
    pub record: Panner,
    panner: Option<VbapPanner>,
}

fn before(length: usize) -> Vec<f32> {
    (0..length as u32)
        .map(|i| f32::from_bits(BEFORE + i))
        .collect()
}

pub fn comment(name: &str) -> String {
    if name.is_empty() {
        String::new()
    } else {
        format!("# {name}\n")
    }
}

/// Equal bits, or two NaNs.
pub fn same(a: f32, b: f32) -> bool {
    a.to_bits() == b.to_bits() || (a.is_nan() && b.is_nan())
}

impl Subject {
    /// A layout by `new`; none where it is refused.
    pub fn of_layout(layout: &Layout) -> Option<Subject> {
        let given = layout.opened();
        let line = comment(&layout.name) + &layout.arguments("layout").line();
        let panner = VbapPanner::new(&triples(&layout.numbers), &layout.lfe);
        (given.refusal == 0).then_some(Subject {
            line,
            record: given.panner,
            panner: Some(panner),
        })
    }

    /// A record made by hand.
    pub fn of_record(name: &str, record: Panner) -> Subject {
        let mut words = Words::new("record");
        words.panner(&record);
        let panner = (!record.malformed()).then(|| VbapPanner::of_record(&record));
        Subject {
            line: comment(name) + &words.line(),
            record,
            panner,
        }
    }

    pub fn malformed(&self) -> bool {
        self.panner.is_none()
    }

    /// The lengths that short, fitting and long buffers have.
    pub fn lengths(&self) -> Vec<usize> {
        let n = self.record.num_outputs;
        let mut lengths = vec![n, 0, 1, n.saturating_sub(1), n + 3];
        lengths.iter_mut().for_each(|l| *l = (*l).min(MAX_LENGTH));
        lengths
    }

    /// The buffer after a call. What its places held before decides nothing: tested here.
    fn row(&self, panner: &VbapPanner, call: Call) -> Vec<f32> {
        let (mut out, mut zeros) = (before(call.length), vec![0.0; call.length]);
        panner.gains(call.az, call.el, &mut out);
        panner.gains(call.az, call.el, &mut zeros);
        let n = self.record.num_outputs.min(call.length);
        assert!(
            out.iter().zip(&zeros).take(n).all(|(a, b)| same(*a, *b)),
            "{call:?}: depends on the buffer"
        );
        assert!(
            out.iter()
                .zip(before(call.length))
                .skip(n)
                .all(|(a, b)| same(*a, b)),
            "{call:?}: touches a place"
        );
        out.truncate(n);
        out
    }

    fn gains_line(&self, call: Call) -> String {
        let mut words = Words::new("gains");
        words.floats(&[call.az, call.el]);
        words.count(call.length);
        let row = self.panner.as_ref().map_or(vec![], |p| self.row(p, call));
        // Origin: document 01, refusal 11.
        words.count(if self.malformed() { 11 } else { 0 });
        let filled = row.iter().enumerate().filter(|(_, g)| g.to_bits() != 0);
        words.count(filled.clone().count());
        for (place, gain) in filled {
            words.count(place);
            words.expected(&[*gain]);
        }
        words.line()
    }

    fn num_outputs_line(&self) -> String {
        let mut words = Words::new("num_outputs");
        let (number, count) = self
            .panner
            .as_ref()
            .map_or((11, 0), |p| (0, p.num_outputs()));
        words.count(number);
        words.count(count);
        words.line()
    }

    /// The subject's lines, each row once, and how many rows they are.
    pub fn lines(&self, calls: &[Call]) -> (String, usize) {
        let (mut seen, mut rows) = (HashSet::new(), 0);
        let mut text = self.line.clone() + &self.num_outputs_line();
        for call in calls {
            if seen.insert((call.az.to_bits(), call.el.to_bits(), call.length)) {
                text.push_str(&self.gains_line(*call));
                rows += 1;
            }
        }
        (text, rows)
    }
}

/// Lists of rows in the making: text, and what stands in the first line.
#[derive(Default)]
pub struct Rows {
    pub text: String,
    layouts: usize,
    records: usize,
    malformed: usize,
    rows: usize,
}

impl Rows {
    pub fn add(&mut self, subject: &Subject, by_hand: bool, calls: &[Call]) {
        let (text, rows) = subject.lines(calls);
        self.text.push_str(&text);
        self.rows += rows;
        self.layouts += usize::from(!by_hand);
        self.records += usize::from(by_hand);
        self.malformed += usize::from(subject.malformed());
    }

    /// For the first line of a list.
    pub fn what(&self) -> String {
        let Rows {
            layouts,
            records,
            malformed,
            rows,
            ..
        } = self;
        format!("layout {layouts}, record {records} ({malformed} malformed), num_outputs {}, gains {rows}", layouts + records)
    }
}
