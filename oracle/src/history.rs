//! Document 01, "Session", from "The history that it speaks of" on: lists of directions and one
//! row a source, worked out from the arguments of open and of the calls alone.

use crate::layouts::triples;
use crate::session::{finite_or_0, render_refusal, Call, Session, DEPTH};
use crate::source::vbap_standins::VbapPanner;

/// What the calls so far amount to.
pub struct History {
    panner: VbapPanner,
    pub lists: Vec<Vec<(f32, f32)>>,
    pub rows: Vec<Vec<f32>>,
}

impl History {
    /// Empty lists and rows of +0. The arguments are those of an accepted open.
    pub fn beginning(numbers: &[f32], lfe: &[usize], sources: usize) -> History {
        let panner = VbapPanner::new(&triples(numbers), lfe);
        let rows = vec![vec![0.0; panner.num_outputs()]; sources];
        History {
            panner,
            lists: vec![Vec::new(); sources],
            rows,
        }
    }

    /// The number that the table gives a call.
    pub fn refusal(&self, call: &Call) -> u8 {
        let standing = |source: &usize| self.lists.get(*source).map(Vec::len);
        match call {
            Call::Render {
                length,
                samples,
                outputs,
            } => render_refusal(
                *length,
                samples.len(),
                outputs.len(),
                self.lists.len(),
                self.panner.num_outputs(),
            ),
            Call::Place { source, .. } => match standing(source) {
                None => 5,
                Some(DEPTH) => 6,
                Some(_) => 0,
            },
            Call::TakeBack { source } => match standing(source) {
                None => 5,
                Some(0) => 7,
                Some(_) => 0,
            },
            Call::Settle { source } => standing(source).map_or(5, |_| 0),
        }
    }

    fn row(&self, list: &[(f32, f32)]) -> Vec<f32> {
        let mut row = vec![0.0; self.panner.num_outputs()];
        if let Some((az, el)) = list.last() {
            self.panner.gains(*az, *el, &mut row);
        }
        row
    }

    /// One call: where it is refused nothing changes.
    pub fn call(&mut self, call: &Call) -> u8 {
        let refusal = self.refusal(call);
        if refusal != 0 {
            return refusal;
        }
        match call {
            Call::Place { source, az, el } => {
                self.lists[*source].push((finite_or_0(*az), finite_or_0(*el)))
            }
            Call::TakeBack { source } => drop(self.lists[*source].pop()),
            Call::Settle { source } => {
                let last = self.lists[*source].last().copied();
                self.lists[*source] = last.into_iter().collect();
            }
            Call::Render { .. } => self.rows = self.lists.iter().map(|l| self.row(l)).collect(),
        }
        0
    }

    /// Whether a session's record is what this history says, unused places +0 included.
    pub fn stands_for(&self, session: &Session) -> bool {
        let mut told = Session::fresh(self.panner.record(), self.lists.len());
        for (i, (list, row)) in self.lists.iter().zip(&self.rows).enumerate() {
            told.counts[i] = list.len() as u8;
            for (j, (az, el)) in list.iter().enumerate() {
                told.standing[(i * DEPTH + j) * 2] = *az;
                told.standing[(i * DEPTH + j) * 2 + 1] = *el;
            }
            told.starts[i * 40..][..row.len()].copy_from_slice(row);
        }
        told.words() == session.words()
    }
}
