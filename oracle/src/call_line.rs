//! Lines of the lists of calls: a session opened or made by hand, the calls on it with their
//! numbers, and at the end every field of the session. docs/CASES.md, "Lists of calls".

use crate::history::History;
use crate::layout_line::{Layout, Words};
use crate::record::{Panner, MAX_TRIPLETS};
use crate::rows::comment;
use crate::selftest::agree;
use crate::session::{open, Call, Session};

// ---- samples

/// Samples and output buffers: the draws of a small generator. Origin of the constants: Park,
/// Miller and Stockmeyer, "Another test for randomness", 1993.
pub struct Draws {
    draw: u64,
    manner: u64,
}

impl Draws {
    pub const MODULUS: u64 = (1 << 31) - 1;
    const FACTOR: u64 = 48271;

    pub fn new(seed: u64) -> Draws {
        Draws {
            draw: seed,
            manner: seed % 3,
        }
    }

    /// The float of the next draw: any bits, from 1/4 up to 1 in size, or a special value.
    fn float(&mut self) -> f32 {
        self.draw = self.draw * Self::FACTOR % Self::MODULUS;
        let x = self.draw;
        let bits = match self.manner {
            0 => 2 * x + x / 65536 % 2,
            1 => 0x3e80_0000 + x % (1 << 24) + (x / (1 << 24) % 2) * (1 << 31),
            _ => [
                0,
                0x8000_0000,
                0x3f80_0000,
                0xbf80_0000,
                0x7f80_0000,
                0x7fc0_0000,
                1,
                0x7f7f_ffff,
            ][x as usize % 8],
        };
        f32::from_bits(bits as u32)
    }

    pub fn buffer(&mut self, length: usize) -> Vec<f32> {
        (0..length).map(|_| self.float()).collect()
    }
}

// ---- sums

/// Words of 32 bits as the digits of a number, modulo the least prime above 2^32. Origin of the
/// factor: rand in ISO C.
#[derive(Clone, Copy)]
pub struct Sum(pub u64);

impl Sum {
    const MODULUS: u64 = 4_294_967_311;
    const FACTOR: u64 = 1_103_515_245;

    pub fn new() -> Sum {
        Sum(1)
    }

    fn word(&mut self, word: u64) {
        self.0 = (self.0 * Self::FACTOR + word) % Self::MODULUS;
    }

    fn bytes(&mut self, values: &[u8]) {
        values.iter().for_each(|&n| self.word(n as u64));
    }

    /// A NaN counts as 7fc00000.
    fn floats(&mut self, values: &[f32]) {
        let word = |x: &f32| {
            if x.is_nan() {
                0x7fc0_0000
            } else {
                x.to_bits() as u64
            }
        };
        values.iter().for_each(|x| self.word(word(x)));
    }

    /// Every field of a record, in the record's order, used or not.
    pub fn of_record(p: &Panner) -> u64 {
        let mut s = Sum::new();
        s.bytes(&[p.num_outputs as u8, p.kind as u8, p.mono, p.num_pairs as u8]);
        for pair in &p.pairs {
            s.floats(&[pair.start, pair.gap]);
            s.bytes(&[pair.a, pair.b, pair.law.is_some() as u8]);
            s.floats(&pair.law.unwrap_or([0.0; 4]));
        }
        s.bytes(&[p.num_slots as u8]);
        s.bytes(&p.slots);
        s.bytes(&[p.num_real as u8]);
        s.bytes(&p.pt_out);
        s.floats(p.pt_dir.as_flattened());
        s.bytes(&[p.num_tris as u8]);
        s.bytes(p.idx.as_flattened());
        for e in 0..9 {
            let entries: [f32; MAX_TRIPLETS] = std::array::from_fn(|t| p.inv[t][e]);
            s.floats(&entries);
        }
        s.bytes(&[p.num_imag as u8]);
        s.bytes(&p.num_nbrs);
        s.bytes(p.imag_nbrs.as_flattened());
        s.0
    }
}

// ---- calls

/// The arguments of a call, as a line has them; a render's buffers are the draws of a seed.
#[derive(Clone, Copy, Debug)]
pub enum Asked {
    Place {
        source: usize,
        az: f32,
        el: f32,
    },
    TakeBack {
        source: usize,
    },
    Settle {
        source: usize,
    },
    Render {
        length: usize,
        samples: usize,
        outputs: usize,
        seed: u64,
    },
}

impl Asked {
    fn call(self) -> Call {
        match self {
            Asked::Place { source, az, el } => Call::Place { source, az, el },
            Asked::TakeBack { source } => Call::TakeBack { source },
            Asked::Settle { source } => Call::Settle { source },
            Asked::Render {
                length,
                samples,
                outputs,
                seed,
            } => {
                let mut draws = Draws::new(seed);
                Call::Render {
                    length,
                    samples: draws.buffer(samples),
                    outputs: draws.buffer(outputs),
                }
            }
        }
    }

    fn words(self) -> Words {
        let with_source = |name: &str, source: usize| {
            let mut words = Words::new(name);
            words.count(source);
            words
        };
        match self {
            Asked::Place { source, az, el } => {
                let mut words = with_source("place", source);
                words.floats(&[az, el]);
                words
            }
            Asked::TakeBack { source } => with_source("take_back", source),
            Asked::Settle { source } => with_source("settle", source),
            Asked::Render {
                length,
                samples,
                outputs,
                seed,
            } => {
                let mut words = Words::new("render");
                [length, samples, outputs, seed as usize]
                    .iter()
                    .for_each(|&n| words.count(n));
                words
            }
        }
    }
}

// ---- a list

/// The places that are not +0, rising, each behind its number.
fn places(words: &mut Words, values: &[f32], write: fn(&mut Words, &[f32])) {
    let filled = values.iter().enumerate().filter(|(_, x)| x.to_bits() != 0);
    words.count(filled.clone().count());
    for (place, x) in filled {
        words.count(place);
        write(words, &[*x]);
    }
}

fn lists_and_rows(words: &mut Words, s: &Session, write: fn(&mut Words, &[f32])) {
    words.count(s.sources);
    s.counts.iter().for_each(|&n| words.count(n as usize));
    places(words, &s.standing, write);
    places(words, &s.starts, write);
}

/// A session made by hand: a record whose lists are as long as its counts say, and the session,
/// whose counts may be others.
pub struct Made {
    pub name: String,
    pub listed: Panner,
    pub session: Session,
}

impl Made {
    fn words(&self) -> Words {
        let mut words = Words::new("session");
        words.panner(&self.listed);
        let p = &self.session.panner;
        [p.num_pairs, p.num_slots, p.num_real, p.num_tris, p.num_imag]
            .iter()
            .for_each(|&n| words.count(n));
        p.num_nbrs.iter().for_each(|&n| words.count(n as usize));
        lists_and_rows(&mut words, &self.session, Words::floats);
        words
    }
}

/// Lists in the making: the text, the session, its history where `open` accepted, the sum of the
/// answers, how often each number was answered, and how often each kind was opened.
pub struct Writer {
    pub text: String,
    pub session: Session,
    history: Option<History>,
    sum: Sum,
    numbers: [usize; 12],
    kinds: [usize; 4],
    lists: usize,
    renders: usize,
}

impl Writer {
    pub fn new() -> Writer {
        let session = Session::fresh(Panner::empty(), 0);
        Writer {
            text: String::new(),
            session,
            history: None,
            sum: Sum::new(),
            numbers: [0; 12],
            kinds: [0; 4],
            lists: 0,
            renders: 0,
        }
    }

    fn answered(&mut self, number: u8) {
        self.numbers[number as usize] += 1;
        self.sum.word(number as u64);
    }

    /// Opens a session, or none: the empty record stands for it, and every call on it gives 11.
    pub fn open(&mut self, layout: &Layout, sources: usize) -> u8 {
        let (number, imaginary, session) = open(&layout.numbers, &layout.lfe, sources);
        self.history =
            (number == 0).then(|| History::beginning(&layout.numbers, &layout.lfe, sources));
        self.session = session.unwrap_or(Session::fresh(Panner::empty(), 0));
        let mut words = layout.arguments("open");
        [sources, number as usize, imaginary]
            .iter()
            .for_each(|&n| words.count(n));
        self.text.push_str(&(comment(&layout.name) + &words.line()));
        self.kinds[self.session.panner.kind as usize] += usize::from(number == 0);
        self.answered(number);
        self.sum.word(imaginary as u64);
        number
    }

    /// Takes a session as it stands.
    pub fn give(&mut self, made: &Made) {
        self.history = None;
        self.session = made.session.clone();
        self.text
            .push_str(&(comment(&made.name) + &made.words().line()));
    }

    /// A call on the record and, of an opened session, on the history, which have to agree.
    pub fn ask(&mut self, asked: Asked) -> u8 {
        let mut call = asked.call();
        let number = match &mut self.history {
            Some(history) => {
                agree(&mut self.session, history, &mut call).unwrap_or_else(|e| panic!("{e}"))
            }
            None => self.session.call(&mut call),
        };
        self.answered(number);
        if let Call::Render { outputs, .. } = &call {
            self.sum.floats(outputs);
            self.renders += 1;
        }
        let mut words = asked.words();
        words.count(number as usize);
        self.text.push_str(&words.line());
        number
    }

    /// Ends the list: the sum of the answers, that of the record, and the other fields.
    pub fn end(&mut self) {
        let mut words = Words::new("end");
        words.count(self.sum.0 as usize);
        words.count(Sum::of_record(&self.session.panner) as usize);
        lists_and_rows(&mut words, &self.session, Words::expected);
        self.text.push_str(&words.line());
        self.sum = Sum::new();
        self.lists += 1;
    }

    /// For the first line of a list.
    pub fn what(&self) -> String {
        let calls: usize = self.numbers.iter().sum();
        let Writer {
            lists,
            renders,
            kinds: [silent, mono, planar, hull],
            numbers,
            ..
        } = self;
        let opened = format!("opened silent {silent}, mono {mono}, planar {planar}, hull {hull}");
        format!("lists {lists}, calls {calls}, renders {renders}, {opened}, numbers 0 to 11 {numbers:?}")
    }
}

impl Default for Writer {
    fn default() -> Self {
        Writer::new()
    }
}
