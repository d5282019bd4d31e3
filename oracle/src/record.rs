//! Document 01, "Layout" and "Returned numbers": a layout as a flat record by value, and when
//! such a record is malformed.

/// Greatest counts of a layout. Origin: document 01, the paragraph on 11.
pub const MAX_OUTPUTS: usize = 40;
pub const MAX_TRIPLETS: usize = 80;
pub const MAX_IMAGINARY: usize = 14;

#[derive(Clone, Copy, Debug, PartialEq, Eq)]
pub enum Kind {
    Silent = 0,
    Mono = 1,
    Planar = 2,
    Hull = 3,
}

/// A planar pair; the law is an inverse of four numbers, or `None` for the crossfade.
#[derive(Clone, Copy, Debug)]
pub struct Pair {
    pub start: f32,
    pub gap: f32,
    pub a: u8,
    pub b: u8,
    pub law: Option<[f32; 4]>,
}

/// A layout by value; of each array the first places are used, as many as its count says.
#[derive(Clone, Debug)]
pub struct Panner {
    pub num_outputs: usize,
    pub kind: Kind,
    pub mono: u8,
    pub num_pairs: usize,
    pub pairs: [Pair; MAX_OUTPUTS],
    pub num_slots: usize,
    pub slots: [u8; MAX_OUTPUTS],
    pub num_real: usize,
    pub pt_out: [u8; MAX_OUTPUTS],
    pub pt_dir: [[f32; 3]; MAX_OUTPUTS],
    pub num_tris: usize,
    pub idx: [[u8; 3]; MAX_TRIPLETS],
    pub inv: [[f32; 9]; MAX_TRIPLETS],
    pub num_imag: usize,
    pub num_nbrs: [u8; MAX_IMAGINARY],
    pub imag_nbrs: [[u8; MAX_OUTPUTS]; MAX_IMAGINARY],
}

impl Pair {
    fn words(&self) -> Vec<u64> {
        let mut w = vec![
            self.start.to_bits() as u64,
            self.gap.to_bits() as u64,
            self.a as u64,
            self.b as u64,
        ];
        w.push(self.law.is_some() as u64);
        w.extend(
            self.law
                .unwrap_or([0.0; 4])
                .iter()
                .map(|x| x.to_bits() as u64),
        );
        w
    }
}

impl Panner {
    /// A silent layout without outputs: 0, +0 and the crossfade everywhere.
    pub fn empty() -> Panner {
        Panner {
            num_outputs: 0,
            kind: Kind::Silent,
            mono: 0,
            num_pairs: 0,
            pairs: [Pair {
                start: 0.0,
                gap: 0.0,
                a: 0,
                b: 0,
                law: None,
            }; MAX_OUTPUTS],
            num_slots: 0,
            slots: [0; MAX_OUTPUTS],
            num_real: 0,
            pt_out: [0; MAX_OUTPUTS],
            pt_dir: [[0.0; 3]; MAX_OUTPUTS],
            num_tris: 0,
            idx: [[0; 3]; MAX_TRIPLETS],
            inv: [[0.0; 9]; MAX_TRIPLETS],
            num_imag: 0,
            num_nbrs: [0; MAX_IMAGINARY],
            imag_nbrs: [[0; MAX_OUTPUTS]; MAX_IMAGINARY],
        }
    }

    /// Every field in order, floats by their bits: two records are equal when these are.
    pub fn words(&self) -> Vec<u64> {
        let bytes = |b: &[u8]| b.iter().map(|&n| n as u64).collect::<Vec<_>>();
        let floats = |f: &[f32]| f.iter().map(|x| x.to_bits() as u64).collect::<Vec<_>>();
        let mut w = vec![
            self.num_outputs as u64,
            self.kind as u64,
            self.mono as u64,
            self.num_pairs as u64,
        ];
        w.extend(self.pairs.iter().flat_map(Pair::words));
        w.push(self.num_slots as u64);
        w.extend(bytes(&self.slots));
        w.push(self.num_real as u64);
        w.extend(bytes(&self.pt_out));
        w.extend(floats(self.pt_dir.as_flattened()));
        w.push(self.num_tris as u64);
        w.extend(bytes(self.idx.as_flattened()));
        w.extend(floats(self.inv.as_flattened()));
        w.push(self.num_imag as u64);
        w.extend(bytes(&self.num_nbrs));
        w.extend(bytes(self.imag_nbrs.as_flattened()));
        w
    }

    /// A count over its bound, tested in every kind.
    fn counts_over(&self) -> bool {
        self.num_outputs > MAX_OUTPUTS
            || self.num_real > MAX_OUTPUTS
            || self.num_pairs > MAX_OUTPUTS
            || self.num_slots > MAX_OUTPUTS
            || self.num_tris > MAX_TRIPLETS
            || self.num_imag > MAX_IMAGINARY
            || self.num_nbrs.iter().any(|&n| n as usize > MAX_OUTPUTS)
    }

    /// The slot numbers that the kind and its counts reach.
    fn used_slots(&self) -> Vec<u8> {
        match self.kind {
            Kind::Silent => vec![],
            Kind::Mono => vec![self.mono],
            Kind::Planar => {
                let ends = self.pairs[..self.num_pairs].iter().flat_map(|p| [p.a, p.b]);
                ends.chain(self.slots[..self.num_slots].iter().copied())
                    .collect()
            }
            Kind::Hull => {
                let nbrs = (0..self.num_imag)
                    .flat_map(|k| &self.imag_nbrs[k][..self.num_nbrs[k] as usize]);
                self.pt_out[..self.num_real]
                    .iter()
                    .chain(nbrs)
                    .copied()
                    .collect()
            }
        }
    }

    /// The point numbers that the kind and its counts reach.
    fn used_points(&self) -> &[u8] {
        if self.kind == Kind::Hull {
            self.idx[..self.num_tris].as_flattened()
        } else {
            &[]
        }
    }

    /// Refusal 11.
    pub fn malformed(&self) -> bool {
        self.counts_over()
            || self
                .used_slots()
                .iter()
                .any(|&s| s as usize >= self.num_outputs)
            || self
                .used_points()
                .iter()
                .any(|&p| p as usize >= self.num_real + self.num_imag)
    }
}
