//! Layouts of the stored lists: what `new` is given, and the line that says what it gives.

use crate::layouts::{opened, Opened};
use crate::record::{Kind, Pair, Panner};

/// The arguments of `new`, with a name for people; drawn ones have none.
#[derive(Clone, Debug)]
pub struct Layout {
    pub name: String,
    pub numbers: Vec<f32>,
    pub lfe: Vec<usize>,
}

impl Layout {
    /// A layout of whole positions.
    pub fn new(name: impl Into<String>, positions: &[[f32; 3]], lfe: &[usize]) -> Layout {
        Layout {
            name: name.into(),
            numbers: positions.concat(),
            lfe: lfe.to_vec(),
        }
    }

    /// The arguments by their bits: two layouts are the same when these are.
    pub fn bits(&self) -> (Vec<u32>, Vec<usize>) {
        (
            self.numbers.iter().map(|x| x.to_bits()).collect(),
            self.lfe.clone(),
        )
    }

    /// What `new` gives: `open` with a number of sources that it accepts.
    pub fn opened(&self) -> Opened {
        opened(&self.numbers, &self.lfe, 1)
    }

    /// The lines of a list: the name as a comment where there is one, then the case.
    pub fn lines(&self, given: &Opened) -> String {
        let comment = if self.name.is_empty() {
            String::new()
        } else {
            format!("# {}\n", self.name)
        };
        comment + &self.line(given)
    }

    fn line(&self, given: &Opened) -> String {
        let mut words = self.arguments("new");
        words.count(given.refusal as usize);
        words.count(given.imaginary);
        words.panner(&given.panner);
        words.line()
    }

    /// A name and the arguments of `new`.
    pub fn arguments(&self, name: &str) -> Words {
        let mut words = Words::new(name);
        words.count(self.numbers.len());
        words.floats(&self.numbers);
        words.count(self.lfe.len());
        self.lfe.iter().for_each(|&entry| words.count(entry));
        words
    }
}

/// Words of a line: floats as 8 digits, whole numbers without leading zeros.
pub struct Words(Vec<String>);

impl Words {
    pub fn new(name: &str) -> Words {
        Words(vec![name.to_string()])
    }

    pub fn line(&self) -> String {
        self.0.join(" ") + "\n"
    }

    pub fn count(&mut self, n: usize) {
        self.0.push(format!("{n:x}"));
    }

    pub fn floats(&mut self, values: &[f32]) {
        self.0
            .extend(values.iter().map(|x| format!("{:08x}", x.to_bits())));
    }

    /// Expected floats: `nan` for a NaN.
    pub fn expected(&mut self, values: &[f32]) {
        let word = |x: &f32| {
            if x.is_nan() {
                "nan".to_string()
            } else {
                format!("{:08x}", x.to_bits())
            }
        };
        self.0.extend(values.iter().map(word));
    }

    /// As many bytes as a count says.
    fn bytes(&mut self, values: &[u8]) {
        values.iter().for_each(|&n| self.count(n as usize));
    }

    fn pair(&mut self, p: &Pair) {
        self.floats(&[p.start, p.gap]);
        self.bytes(&[p.a, p.b, p.law.is_some() as u8]);
        self.floats(p.law.as_ref().map_or(&[], |m| &m[..]));
    }

    /// The used places of a record, each list behind its count.
    pub fn panner(&mut self, p: &Panner) {
        self.count(p.num_outputs);
        self.bytes(&[p.kind as u8, p.mono]);
        self.count(p.num_pairs);
        p.pairs[..p.num_pairs]
            .iter()
            .for_each(|pair| self.pair(pair));
        self.count(p.num_slots);
        self.bytes(&p.slots[..p.num_slots]);
        self.count(p.num_real);
        for (slot, direction) in p.pt_out.iter().zip(&p.pt_dir).take(p.num_real) {
            self.bytes(&[*slot]);
            self.floats(direction);
        }
        self.count(p.num_tris);
        for (idx, inv) in p.idx.iter().zip(&p.inv).take(p.num_tris) {
            self.bytes(idx);
            self.floats(inv);
        }
        self.count(p.num_imag);
        for (count, slots) in p.num_nbrs.iter().zip(&p.imag_nbrs).take(p.num_imag) {
            self.bytes(&[*count]);
            self.bytes(&slots[..*count as usize]);
        }
    }
}

/// How many layouts of a list came out how.
#[derive(Default)]
pub struct Tally {
    kinds: [usize; 4],
    refused: [usize; 5],
}

impl Tally {
    pub fn see(&mut self, given: &Opened) {
        match given.refusal {
            0 => self.kinds[given.panner.kind as usize] += 1,
            number => self.refused[number as usize] += 1,
        }
    }

    /// For the first line of a list.
    pub fn text(&self) -> String {
        let kind = |k: Kind| self.kinds[k as usize];
        let [_, one, two, _, four] = self.refused;
        format!(
            "{} silent, {} mono, {} planar, {} hull, refused with 1 {one}, with 2 {two}, with 4 {four}",
            kind(Kind::Silent),
            kind(Kind::Mono),
            kind(Kind::Planar),
            kind(Kind::Hull)
        )
    }
}
