//! The source in its two builds, behind one trait.

use oracle::source::{vbap_libm, vbap_standins};

pub trait Source {
    fn gains(&self, az: f32, el: f32, out: &mut [f32]);
    fn normalized_lerp_gain(from: f32, to: f32, dot: f32, t: f32) -> f32;
    fn ramp_add(dst: &mut [f32], src: &[f32], g0: f32, g1: f32);
}

macro_rules! build {
    ($module:ident) => {
        impl Source for $module::VbapPanner {
            fn gains(&self, az: f32, el: f32, out: &mut [f32]) {
                $module::VbapPanner::gains(self, az, el, out)
            }

            fn normalized_lerp_gain(from: f32, to: f32, dot: f32, t: f32) -> f32 {
                $module::normalized_lerp_gain(from, to, dot, t)
            }

            fn ramp_add(dst: &mut [f32], src: &[f32], g0: f32, g1: f32) {
                $module::ramp_add(dst, src, g0, g1)
            }
        }
    };
}

build!(vbap_standins);
build!(vbap_libm);

pub use vbap_libm::VbapPanner as OnLibm;
pub use vbap_standins::VbapPanner as WithStandins;
