//! The functions of crate `boundary_exports`, as crate `boundary_exports_c` exports them: those of
//! `include/panner.h`, and the number work of whole arrays. A slice crosses as its pointer and its
//! length; a record and a session as two arrays.

/// Places of a record and of a session. Origin: `include/panner.h`.
pub const RECORD_BYTES: usize = 1022;
pub const RECORD_FLOATS: usize = 1080;
pub const SESSION_BYTES: usize = 1031;
pub const SESSION_FLOATS: usize = 1656;

extern "C" {
    fn panner_narrow_all(src: *const f64, n: usize, dst: *mut f32, m: usize);
    fn panner_sqrt32_all(src: *const f32, n: usize, dst: *mut f32, m: usize);
    fn panner_sqrt64_all(src: *const f64, n: usize, dst: *mut f64, m: usize);
    fn panner_sin_cos_all(
        src: *const f64,
        n: usize,
        sin: *mut f64,
        m: usize,
        cos: *mut f64,
        k: usize,
    );
    fn panner_atan2_all(
        y: *const f64,
        n: usize,
        x: *const f64,
        m: usize,
        dst: *mut f64,
        k: usize,
    );
    fn panner_normalized_lerp_gain(from: f32, to: f32, dot: f32, t: f32) -> f32;
    fn panner_normalized_lerp_gain_all(
        from: *const f32,
        from_length: usize,
        to: *const f32,
        to_length: usize,
        dot: *const f32,
        dot_length: usize,
        t: *const f32,
        t_length: usize,
        dst: *mut f32,
        dst_length: usize,
    );
    fn panner_ramp_add(dst: *mut f32, n: usize, src: *const f32, m: usize, g0: f32, g1: f32);
    fn panner_new(
        positions: *const f32,
        numbers: usize,
        lfe: *const usize,
        lfe_length: usize,
        imaginary: *mut usize,
        bytes: *mut u8,
        floats: *mut f32,
    ) -> u32;
    fn panner_num_outputs(bytes: *const u8, floats: *const f32, count: *mut usize) -> u32;
    fn panner_gains(
        bytes: *const u8,
        floats: *const f32,
        az: f32,
        el: f32,
        out: *mut f32,
        length: usize,
    ) -> u32;
    fn panner_gains_all(
        bytes: *const u8,
        floats: *const f32,
        az: *const f32,
        az_length: usize,
        el: *const f32,
        el_length: usize,
        width: usize,
        out: *mut f32,
        length: usize,
    ) -> u32;
    fn panner_open(
        positions: *const f32,
        numbers: usize,
        lfe: *const usize,
        lfe_length: usize,
        sources: usize,
        imaginary: *mut usize,
        bytes: *mut u8,
        floats: *mut f32,
    ) -> u32;
    fn panner_place(bytes: *mut u8, floats: *mut f32, source: usize, az: f32, el: f32) -> u32;
    fn panner_take_back(bytes: *mut u8, floats: *mut f32, source: usize) -> u32;
    fn panner_settle(bytes: *mut u8, floats: *mut f32, source: usize) -> u32;
    fn panner_render(
        bytes: *mut u8,
        floats: *mut f32,
        block: usize,
        samples: *const f32,
        samples_length: usize,
        outputs: *mut f32,
        outputs_length: usize,
    ) -> u32;
    fn panner_place_take_back_all(
        bytes: *mut u8,
        floats: *mut f32,
        source: usize,
        az: *const f32,
        az_length: usize,
        el: *const f32,
        el_length: usize,
    ) -> u32;
}

// ---- numbers

pub fn narrow_all(src: &[f64], dst: &mut [f32]) {
    unsafe { panner_narrow_all(src.as_ptr(), src.len(), dst.as_mut_ptr(), dst.len()) }
}

pub fn sqrt32_all(src: &[f32], dst: &mut [f32]) {
    unsafe { panner_sqrt32_all(src.as_ptr(), src.len(), dst.as_mut_ptr(), dst.len()) }
}

pub fn sqrt64_all(src: &[f64], dst: &mut [f64]) {
    unsafe { panner_sqrt64_all(src.as_ptr(), src.len(), dst.as_mut_ptr(), dst.len()) }
}

pub fn sin_cos_all(src: &[f64], sin: &mut [f64], cos: &mut [f64]) {
    let (s, c) = (sin.as_mut_ptr(), cos.as_mut_ptr());
    unsafe { panner_sin_cos_all(src.as_ptr(), src.len(), s, sin.len(), c, cos.len()) }
}

pub fn atan2_all(y: &[f64], x: &[f64], dst: &mut [f64]) {
    let to = dst.as_mut_ptr();
    unsafe { panner_atan2_all(y.as_ptr(), y.len(), x.as_ptr(), x.len(), to, dst.len()) }
}

// ---- the mixed gain and the ramp

pub fn normalized_lerp_gain(from: f32, to: f32, dot: f32, t: f32) -> f32 {
    unsafe { panner_normalized_lerp_gain(from, to, dot, t) }
}

pub fn normalized_lerp_gain_all(from: &[f32], to: &[f32], dot: &[f32], t: &[f32], dst: &mut [f32]) {
    unsafe {
        panner_normalized_lerp_gain_all(
            from.as_ptr(),
            from.len(),
            to.as_ptr(),
            to.len(),
            dot.as_ptr(),
            dot.len(),
            t.as_ptr(),
            t.len(),
            dst.as_mut_ptr(),
            dst.len(),
        )
    }
}

pub fn ramp_add(dst: &mut [f32], src: &[f32], g0: f32, g1: f32) {
    let to = dst.as_mut_ptr();
    unsafe { panner_ramp_add(to, dst.len(), src.as_ptr(), src.len(), g0, g1) }
}

// ---- layouts

/// A record as it crosses the boundary; `records` has the places.
#[derive(Clone)]
pub struct Record {
    pub bytes: [u8; RECORD_BYTES],
    pub floats: [f32; RECORD_FLOATS],
}

impl Record {
    pub fn empty() -> Record {
        Record {
            bytes: [0; RECORD_BYTES],
            floats: [0.0; RECORD_FLOATS],
        }
    }
}

/// `layout::new`: its number, and where it is 0 the imaginary count and the record.
pub fn new(positions: &[f32], lfe: &[usize], imaginary: &mut usize, r: &mut Record) -> u32 {
    unsafe {
        panner_new(
            positions.as_ptr(),
            positions.len(),
            lfe.as_ptr(),
            lfe.len(),
            imaginary,
            r.bytes.as_mut_ptr(),
            r.floats.as_mut_ptr(),
        )
    }
}

/// `panner::num_outputs`: its number, and where it is 0 the count.
pub fn num_outputs(r: &Record, count: &mut usize) -> u32 {
    unsafe { panner_num_outputs(r.bytes.as_ptr(), r.floats.as_ptr(), count) }
}

pub fn gains(r: &Record, az: f32, el: f32, out: &mut [f32]) -> u32 {
    let (bytes, floats, to) = (r.bytes.as_ptr(), r.floats.as_ptr(), out.as_mut_ptr());
    unsafe { panner_gains(bytes, floats, az, el, to, out.len()) }
}

/// A row for each direction, `width` places each; the record is read once.
pub fn gains_all(r: &Record, az: &[f32], el: &[f32], width: usize, out: &mut [f32]) -> u32 {
    unsafe {
        panner_gains_all(
            r.bytes.as_ptr(),
            r.floats.as_ptr(),
            az.as_ptr(),
            az.len(),
            el.as_ptr(),
            el.len(),
            width,
            out.as_mut_ptr(),
            out.len(),
        )
    }
}

// ---- sessions

/// A session as it crosses the boundary: its record's places, and its own behind them.
#[derive(Clone)]
pub struct Session {
    pub bytes: [u8; SESSION_BYTES],
    pub floats: [f32; SESSION_FLOATS],
}

impl Session {
    pub fn empty() -> Session {
        Session {
            bytes: [0; SESSION_BYTES],
            floats: [0.0; SESSION_FLOATS],
        }
    }
}

/// `session_open::open`: its number, and where it is 0 the imaginary count and the session.
pub fn open(
    positions: &[f32],
    lfe: &[usize],
    sources: usize,
    imaginary: &mut usize,
    s: &mut Session,
) -> u32 {
    unsafe {
        panner_open(
            positions.as_ptr(),
            positions.len(),
            lfe.as_ptr(),
            lfe.len(),
            sources,
            imaginary,
            s.bytes.as_mut_ptr(),
            s.floats.as_mut_ptr(),
        )
    }
}

pub fn place(s: &mut Session, source: usize, az: f32, el: f32) -> u32 {
    unsafe { panner_place(s.bytes.as_mut_ptr(), s.floats.as_mut_ptr(), source, az, el) }
}

pub fn take_back(s: &mut Session, source: usize) -> u32 {
    unsafe { panner_take_back(s.bytes.as_mut_ptr(), s.floats.as_mut_ptr(), source) }
}

pub fn settle(s: &mut Session, source: usize) -> u32 {
    unsafe { panner_settle(s.bytes.as_mut_ptr(), s.floats.as_mut_ptr(), source) }
}

pub fn render(s: &mut Session, block: usize, samples: &[f32], outputs: &mut [f32]) -> u32 {
    unsafe {
        panner_render(
            s.bytes.as_mut_ptr(),
            s.floats.as_mut_ptr(),
            block,
            samples.as_ptr(),
            samples.len(),
            outputs.as_mut_ptr(),
            outputs.len(),
        )
    }
}

/// For each direction a `place` of it and a `take_back`, up to the first that is refused: its
/// number, or 0.
pub fn place_take_back_all(s: &mut Session, source: usize, az: &[f32], el: &[f32]) -> u32 {
    unsafe {
        panner_place_take_back_all(
            s.bytes.as_mut_ptr(),
            s.floats.as_mut_ptr(),
            source,
            az.as_ptr(),
            az.len(),
            el.as_ptr(),
            el.len(),
        )
    }
}
