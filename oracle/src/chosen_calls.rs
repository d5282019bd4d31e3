//! Named lists of calls: document 01's cases that need a session, the order of the refusals, and
//! what each call leaves. The numbers beside the calls are document 01's.

use crate::call_line::{Asked, Writer};
use crate::chosen_layouts::{fourteen_imaginary, nine_imaginary, open_hull, ten_imaginary};
use crate::edges::{Position, F, RIGHT, TOP};
use crate::layout_line::Layout;
use crate::layouts::{front, repeated, ring};
use crate::session::{DEPTH, MAX_BLOCK};
use Asked::{Settle, TakeBack};

fn layout(name: &str, positions: &[Position]) -> Layout {
    Layout::new(name, positions, &[])
}

fn place(source: usize, az: f32, el: f32) -> Asked {
    Asked::Place { source, az, el }
}

/// A render with buffers of the right lengths.
fn render(sources: usize, outputs: usize, length: usize, seed: u64) -> Asked {
    Asked::Render {
        length,
        samples: sources * length,
        outputs: outputs * length,
        seed,
    }
}

impl Writer {
    /// An open that has to give a number.
    fn opens(&mut self, layout: &Layout, sources: usize, number: u8) {
        assert_eq!(self.open(layout, sources), number, "{}", layout.name);
    }

    /// Calls that each have to give a number.
    fn gives(&mut self, calls: &[(Asked, u8)]) {
        for (asked, number) in calls {
            assert_eq!(self.ask(*asked), *number, "{asked:?}");
        }
    }
}

/// Document 01, "Proving ground": its cases that need a session.
fn proving_ground(w: &mut Writer) {
    w.opens(
        &layout("proving ground: 40 times F is accepted", &[F; 40]),
        1,
        0,
    );
    w.gives(&[(place(0, 0.0, 0.0), 0), (render(1, 40, 2, 1), 0)]);
    w.end();
    w.opens(
        &layout("proving ground: 41 times F gives 2", &[F; 41]),
        1,
        2,
    );
    w.gives(&[(place(0, 0.0, 0.0), 11), (render(1, 41, 2, 1), 11)]);
    w.end();
    w.opens(
        &layout(
            "proving ground: sixteen placements pass, the next gives 6",
            &[F, RIGHT, TOP],
        ),
        2,
        0,
    );
    for n in 0..DEPTH {
        w.gives(&[(place(0, 0.1 * n as f32, 0.05 * n as f32), 0)]);
    }
    w.gives(&[
        (place(0, 1.0, 1.0), 6),
        (place(1, 1.0, 1.0), 0),
        (render(2, 3, 4, 1), 0),
        (place(0, 1.0, 1.0), 6),
    ]);
    w.end();
    w.opens(
        &layout("proving ground: L = 1,024 passes, 1,025 gives 8", &[F]),
        1,
        0,
    );
    w.gives(&[
        (place(0, 0.0, 0.0), 0),
        (render(1, 1, MAX_BLOCK, 1), 0),
        (render(1, 1, MAX_BLOCK + 1, 1), 8),
    ]);
    w.gives(&[(TakeBack { source: 0 }, 0), (render(1, 1, MAX_BLOCK, 2), 0)]);
    w.end();
    w.opens(
        &layout(
            "proving ground: forty well-spread speakers all in front give 4",
            &front(40),
        ),
        1,
        4,
    );
    w.gives(&[(TakeBack { source: 0 }, 11), (render(1, 40, 1, 1), 11)]);
    w.end();
    w.opens(
        &layout("proving ground: fresh, take back gives 7", &[F]),
        1,
        0,
    );
    w.gives(&[(TakeBack { source: 0 }, 7)]);
    w.end();
    w.opens(
        &layout("proving ground: place, take back is fresh", &[F]),
        1,
        0,
    );
    w.gives(&[(place(0, 1.0, 1.0), 0), (TakeBack { source: 0 }, 0)]);
    w.end();
    w.opens(&layout("proving ground: no positions", &[]), 8, 0);
    w.gives(&[
        (place(7, 1.0, 1.0), 0),
        (render(8, 0, 3, 1), 0),
        (render(8, 1, 3, 1), 10),
    ]);
    w.end();
    w.opens(&layout("proving ground: F, F", &[F, F]), 1, 0);
    w.gives(&[(place(0, 0.0, 0.0), 0), (render(1, 2, 2, 1), 0)]);
    w.end();
}

/// The order in which the numbers of the table are tested.
fn orders(w: &mut Writer) {
    let mut numbers = Layout {
        numbers: vec![0.0; 124],
        ..layout("1 before 2 and 3", &[])
    };
    w.opens(&numbers, 0, 1);
    w.end();
    numbers = Layout {
        numbers: vec![0.0; 123],
        ..layout("2 before 3", &[])
    };
    w.opens(&numbers, 9, 2);
    w.end();
    for sources in [0, 9, usize::MAX] {
        w.opens(&layout("3 before 4", &front(40)), sources, 3);
        w.end();
    }
    let corners = [1.0, -1.0, 1.0, -1.0, 1.0, 1.0, -1.0, 1.0, -1.0];
    for (copies, number) in [(26, 0), (27, 4)] {
        let numbers = repeated(&corners, [-1.0, 0.0, 0.0], copies);
        w.opens(
            &Layout {
                numbers,
                ..layout("a list on the way of 80, and of 83", &[])
            },
            3,
            number,
        );
        w.end();
    }
    w.opens(&layout("5 before 6 and 7", &[F, RIGHT]), 2, 0);
    for source in [2, 7, 8, 255, 256, usize::MAX] {
        w.gives(&[
            (place(source, 0.0, 0.0), 5),
            (TakeBack { source }, 5),
            (Settle { source }, 5),
        ]);
    }
    w.end();
    w.opens(&layout("8 before 9, 9 before 10", &[F, RIGHT]), 2, 0);
    for (length, samples, outputs, number) in [
        (0, 0, 0, 8),
        (0, 1, 1, 8),
        (1025, 0, 0, 8),
        (usize::MAX, 2, 2, 8),
        (1 << 63, 0, 0, 8),
        (2, 3, 3, 9),
        (2, 5, 4, 9),
        (2, 0, 4, 9),
        (2, 4, 3, 10),
        (2, 4, 5, 10),
        (2, 4, 0, 10),
        (2, 4, 4, 0),
    ] {
        w.gives(&[(
            Asked::Render {
                length,
                samples,
                outputs,
                seed: 4,
            },
            number,
        )]);
    }
    w.end();
}

/// What single calls leave.
fn steps(w: &mut Writer) {
    w.opens(
        &layout(
            "settle keeps the last; an empty list stays empty",
            &[F, RIGHT, TOP],
        ),
        3,
        0,
    );
    w.gives(&[
        (Settle { source: 1 }, 0),
        (place(0, 0.5, 0.5), 0),
        (place(0, -0.5, 0.25), 0),
        (place(0, 1.5, 0.0), 0),
    ]);
    w.gives(&[
        (Settle { source: 0 }, 0),
        (Settle { source: 0 }, 0),
        (render(3, 3, 4, 1), 0),
    ]);
    w.end();
    w.opens(
        &layout(
            "a broken angle counts as +0, and -0 stays",
            &[F, RIGHT, TOP],
        ),
        1,
        0,
    );
    for bits in [
        0x7fc0_0000,
        0xff80_0001,
        0x7f80_0000,
        0xff80_0000,
        0x8000_0000,
        1,
    ] {
        w.gives(&[
            (place(0, f32::from_bits(bits), 0.5), 0),
            (place(0, 0.5, f32::from_bits(bits)), 0),
            (render(1, 3, 2, 1), 0),
        ]);
    }
    w.end();
    w.opens(
        &layout("a row to and fro: one render each", &ring(4, 0.0, 0.0)),
        1,
        0,
    );
    let block = |seed| (render(1, 4, 3, seed), 0);
    w.gives(&[
        (place(0, 0.0, 0.0), 0),
        block(1),
        (place(0, 1.0, 0.0), 0),
        block(4),
        (TakeBack { source: 0 }, 0),
        block(7),
    ]);
    w.gives(&[
        (TakeBack { source: 0 }, 0),
        block(10),
        (TakeBack { source: 0 }, 7),
        block(2),
        block(3),
    ]);
    w.end();
    w.opens(&layout("opened again", &[F]), 1, 0);
    w.gives(&[(place(0, 0.0, 0.0), 0), (render(1, 1, 2, 1), 0)]);
    w.opens(&layout("", &[F, RIGHT]), 2, 0);
    w.gives(&[
        (TakeBack { source: 0 }, 7),
        (render(1, 1, 2, 1), 9),
        (render(2, 2, 2, 1), 0),
    ]);
    w.opens(&layout("", &[F]), 0, 3);
    w.gives(&[(Settle { source: 0 }, 11)]);
    w.end();
    w.opens(
        &layout(
            "greatest: 40 outputs, 8 sources, L = 1,024",
            &ring(40, 0.0, 0.0),
        ),
        8,
        0,
    );
    for source in 0..8 {
        w.gives(&[(place(source, source as f32, 0.0), 0)]);
    }
    w.gives(&[
        (render(8, 40, MAX_BLOCK, 1), 0),
        (render(8, 40, MAX_BLOCK, 4), 0),
        (render(8, 40, MAX_BLOCK + 1, 1), 8),
    ]);
    w.end();
}

/// Sessions over a hull that is open at the end, where the nearest speaker plays alone, and over
/// those with the most imaginary speakers found.
fn ends(w: &mut Writer) {
    w.opens(
        &layout("open hull: the nearest speaker", &open_hull()),
        2,
        0,
    );
    let block = |seed| (render(2, 22, 3, seed), 0);
    w.gives(&[
        (place(0, 0.3, 0.2), 0),
        (place(1, -2.0, -0.7), 0),
        block(1),
        (place(0, 0.8, 0.6), 0),
        block(4),
        (TakeBack { source: 0 }, 0),
        (Settle { source: 1 }, 0),
        block(7),
        (render(2, 21, 3, 1), 10),
        (TakeBack { source: 1 }, 0),
        (TakeBack { source: 1 }, 7),
        block(2),
    ]);
    w.end();
    w.opens(&layout("nine imaginary", &nine_imaginary()), 1, 0);
    w.gives(&[
        (place(0, 0.3, 0.2), 0),
        (render(1, 3, 4, 1), 0),
        (place(0, 2.5, -0.5), 0),
        (render(1, 3, 4, 4), 0),
    ]);
    w.end();
    w.opens(&layout("open hull, ten imaginary", &ten_imaginary()), 1, 0);
    w.gives(&[
        (place(0, 0.3, 0.2), 0),
        (render(1, 35, 3, 1), 0),
        (place(0, -2.4, 0.6), 0),
        (render(1, 35, 3, 4), 0),
        (TakeBack { source: 0 }, 0),
        (render(1, 35, 3, 7), 0),
    ]);
    w.end();
    w.opens(
        &layout("open hull, fourteen imaginary", &fourteen_imaginary()),
        1,
        0,
    );
    w.gives(&[
        (place(0, 0.3, 0.2), 0),
        (render(1, 38, 3, 1), 0),
        (place(0, -2.4, 0.6), 0),
        (render(1, 38, 3, 4), 0),
        (TakeBack { source: 0 }, 0),
        (render(1, 38, 3, 7), 0),
    ]);
    w.end();
}

pub fn chosen(w: &mut Writer) {
    proving_ground(w);
    orders(w);
    steps(w);
    ends(w);
}
