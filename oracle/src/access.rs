// Included behind the source, in its module: the way from its private fields to the flat
// record of document 01 and back.

impl VbapPanner {
    /// The flat record; every place that the kind does not reach is 0, +0 or the crossfade.
    pub fn record(&self) -> crate::record::Panner {
        let mut r = crate::record::Panner::empty();
        r.num_outputs = self.num_outputs;
        match &self.kind {
            Kind::Silent => {}
            Kind::Mono(slot) => {
                r.kind = crate::record::Kind::Mono;
                r.mono = *slot as u8;
            }
            Kind::Planar { pairs, slots } => {
                r.kind = crate::record::Kind::Planar;
                r.num_pairs = pairs.len();
                for (place, p) in r.pairs.iter_mut().zip(pairs) {
                    *place = crate::record::Pair {
                        start: p.start,
                        gap: p.gap,
                        a: p.a as u8,
                        b: p.b as u8,
                        law: p.inv,
                    };
                }
                r.num_slots = slots.len();
                r.slots[..slots.len()].copy_from_slice(&bytes(slots));
            }
            Kind::Hull {
                pt_out,
                pt_dir,
                tris,
                imag_nbrs,
            } => {
                r.kind = crate::record::Kind::Hull;
                r.num_real = pt_out.len();
                r.pt_out[..pt_out.len()].copy_from_slice(&bytes(pt_out));
                r.pt_dir[..pt_dir.len()].copy_from_slice(pt_dir);
                r.num_tris = tris.len();
                for (n, t) in tris.iter().enumerate() {
                    r.idx[n] = t.idx.map(|p| p as u8);
                    r.inv[n] = t.inv;
                }
                r.num_imag = imag_nbrs.len();
                for (k, nbrs) in imag_nbrs.iter().enumerate() {
                    r.num_nbrs[k] = nbrs.len() as u8;
                    r.imag_nbrs[k][..nbrs.len()].copy_from_slice(&bytes(nbrs));
                }
            }
        }
        r
    }

    /// The panner that a well-formed record stands for, hand-made records too.
    pub fn of_record(r: &crate::record::Panner) -> Self {
        let kind = match r.kind {
            crate::record::Kind::Silent => Kind::Silent,
            crate::record::Kind::Mono => Kind::Mono(r.mono as usize),
            crate::record::Kind::Planar => Kind::Planar {
                pairs: r.pairs[..r.num_pairs]
                    .iter()
                    .map(|p| PlanarPair {
                        a: p.a as usize,
                        b: p.b as usize,
                        start: p.start,
                        gap: p.gap,
                        inv: p.law,
                    })
                    .collect(),
                slots: places(&r.slots[..r.num_slots]),
            },
            crate::record::Kind::Hull => Kind::Hull {
                pt_out: places(&r.pt_out[..r.num_real]),
                pt_dir: r.pt_dir[..r.num_real].to_vec(),
                tris: (0..r.num_tris)
                    .map(|n| Triplet {
                        idx: r.idx[n].map(|p| p as usize),
                        inv: r.inv[n],
                    })
                    .collect(),
                imag_nbrs: (0..r.num_imag)
                    .map(|k| places(&r.imag_nbrs[k][..r.num_nbrs[k] as usize]))
                    .collect(),
            },
        };
        Self {
            num_outputs: r.num_outputs,
            kind,
        }
    }
}

fn bytes(numbers: &[usize]) -> Vec<u8> {
    numbers.iter().map(|&n| n as u8).collect()
}

fn places(numbers: &[u8]) -> Vec<usize> {
    numbers.iter().map(|&n| n as usize).collect()
}
