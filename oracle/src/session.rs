//! Document 01, "Session": the calls on the record, which is held by value.

use crate::layouts::{opened, MAX_SOURCES};
use crate::record::{Panner, MAX_OUTPUTS};
use crate::source::vbap_standins::{ramp_add, VbapPanner};

/// Standing directions of one source. Origin: document 01, refusal 6.
pub const DEPTH: usize = 16;
/// Greatest block length. Origin: document 01, refusal 8.
pub const MAX_BLOCK: usize = 1024;

/// A session by value: direction j of source i at i * 32 + j * 2, azimuth before elevation;
/// start gain o of source i at i * 40 + o.
#[derive(Clone, Debug)]
pub struct Session {
    pub panner: Panner,
    pub sources: usize,
    pub counts: [u8; MAX_SOURCES],
    pub standing: [f32; MAX_SOURCES * DEPTH * 2],
    pub starts: [f32; MAX_SOURCES * MAX_OUTPUTS],
}

/// The four calls of a list.
#[derive(Clone, Debug)]
pub enum Call {
    Place {
        source: usize,
        az: f32,
        el: f32,
    },
    TakeBack {
        source: usize,
    },
    Settle {
        source: usize,
    },
    Render {
        length: usize,
        samples: Vec<f32>,
        outputs: Vec<f32>,
    },
}

pub fn finite_or_0(x: f32) -> f32 {
    if x.is_finite() {
        x
    } else {
        0.0
    }
}

/// Refusal, imaginary count and the fresh session, none beside a refusal.
pub fn open(numbers: &[f32], lfe: &[usize], sources: usize) -> (u8, usize, Option<Session>) {
    let o = opened(numbers, lfe, sources);
    let session = (o.refusal == 0).then(|| Session::fresh(o.panner, sources));
    (o.refusal, o.imaginary, session)
}

impl Session {
    /// Empty lists, start rows of +0.
    pub fn fresh(panner: Panner, sources: usize) -> Session {
        Session {
            panner,
            sources,
            counts: [0; MAX_SOURCES],
            standing: [0.0; MAX_SOURCES * DEPTH * 2],
            starts: [0.0; MAX_SOURCES * MAX_OUTPUTS],
        }
    }

    /// Every field in order, floats by their bits: two sessions are equal when these are.
    pub fn words(&self) -> Vec<u64> {
        let mut w = self.panner.words();
        w.push(self.sources as u64);
        w.extend(self.counts.iter().map(|&n| n as u64));
        w.extend(
            self.standing
                .iter()
                .chain(&self.starts)
                .map(|x| x.to_bits() as u64),
        );
        w
    }

    /// Refusal 11.
    pub fn malformed(&self) -> bool {
        self.panner.malformed()
            || !(1..=MAX_SOURCES).contains(&self.sources)
            || self.counts.iter().any(|&n| n as usize > DEPTH)
    }

    /// 11, then 5: the refusals that place, take back and settle share.
    fn refusal_of(&self, source: usize) -> u8 {
        if self.malformed() {
            11
        } else if source >= self.sources {
            5
        } else {
            0
        }
    }

    /// The places of one source's directions.
    fn list(&mut self, source: usize) -> &mut [f32] {
        &mut self.standing[source * DEPTH * 2..][..DEPTH * 2]
    }

    pub fn place(&mut self, source: usize, az: f32, el: f32) -> u8 {
        let refusal = self.refusal_of(source);
        if refusal != 0 {
            return refusal;
        }
        let n = self.counts[source] as usize;
        if n == DEPTH {
            return 6;
        }
        self.list(source)[2 * n..2 * n + 2].copy_from_slice(&[finite_or_0(az), finite_or_0(el)]);
        self.counts[source] += 1;
        0
    }

    pub fn take_back(&mut self, source: usize) -> u8 {
        let refusal = self.refusal_of(source);
        if refusal != 0 {
            return refusal;
        }
        let n = self.counts[source] as usize;
        if n == 0 {
            return 7;
        }
        self.list(source)[2 * n - 2..2 * n].fill(0.0);
        self.counts[source] -= 1;
        0
    }

    pub fn settle(&mut self, source: usize) -> u8 {
        let refusal = self.refusal_of(source);
        let n = if refusal == 0 {
            self.counts[source] as usize
        } else {
            0
        };
        if n == 0 {
            return refusal;
        }
        let list = self.list(source);
        list.copy_within(2 * n - 2..2 * n, 0);
        list[2..].fill(0.0);
        self.counts[source] = 1;
        0
    }

    /// The row of the last standing direction, all +0 where none stands.
    fn target(&self, panner: &VbapPanner, source: usize) -> Vec<f32> {
        let mut row = vec![0.0; self.panner.num_outputs];
        if let Some(last) = (self.counts[source] as usize).checked_sub(1) {
            let place = source * DEPTH * 2 + last * 2;
            panner.gains(self.standing[place], self.standing[place + 1], &mut row);
        }
        row
    }

    pub fn render(&mut self, length: usize, samples: &[f32], outputs: &mut [f32]) -> u8 {
        if self.malformed() {
            return 11;
        }
        let n = self.panner.num_outputs;
        let refusal = render_refusal(length, samples.len(), outputs.len(), self.sources, n);
        if refusal != 0 {
            return refusal;
        }
        let panner = VbapPanner::of_record(&self.panner);
        for source in 0..self.sources {
            let target = self.target(&panner, source);
            let start = &mut self.starts[source * MAX_OUTPUTS..][..n];
            for slot in 0..n {
                let dst = &mut outputs[slot * length..][..length];
                ramp_add(
                    dst,
                    &samples[source * length..][..length],
                    start[slot],
                    target[slot],
                );
            }
            start.copy_from_slice(&target);
        }
        0
    }

    /// One call of a list; a render mixes into the call's own output buffer.
    pub fn call(&mut self, call: &mut Call) -> u8 {
        match call {
            Call::Place { source, az, el } => self.place(*source, *az, *el),
            Call::TakeBack { source } => self.take_back(*source),
            Call::Settle { source } => self.settle(*source),
            Call::Render {
                length,
                samples,
                outputs,
            } => self.render(*length, samples, outputs),
        }
    }
}

/// Refusals 8, 9 and 10, from the lengths alone.
pub fn render_refusal(
    length: usize,
    samples: usize,
    mixed: usize,
    sources: usize,
    outputs: usize,
) -> u8 {
    if length == 0 || length > MAX_BLOCK {
        8
    } else if samples != sources * length {
        9
    } else if mixed != outputs * length {
        10
    } else {
        0
    }
}
