//! The panner's source, three times: with document 01's stand-ins, the same with its tolerances
//! as variables, and on the platform's library. build.rs writes the texts; access.rs turns a
//! panner into its record and back.

use std::cell::RefCell;

/// A triplet list built on the way: its length, and whether its hull counts as closed.
#[derive(Clone, Copy, Debug, PartialEq, Eq)]
pub struct Built {
    pub length: usize,
    pub closed: bool,
}

thread_local! {
    static LISTS: RefCell<Vec<Built>> = const { RefCell::new(Vec::new()) };
}

/// Called by the instrumented source for each triplet list.
pub fn list_built(length: usize, closed: bool) {
    LISTS.with(|l| l.borrow_mut().push(Built { length, closed }));
}

/// The triplet lists built since the last call.
pub fn take_lists() -> Vec<Built> {
    LISTS.with(|l| l.take())
}

/// The source with document 01's stand-ins: this one decides.
#[allow(clippy::all, rustdoc::all)]
pub mod vbap_standins {
    #[allow(unused_imports)]
    use crate::standins::{Standins as _, Standins32 as _, Standins64 as _};
    include!(concat!(env!("OUT_DIR"), "/vbap_standins.rs"));
    include!("access.rs");
}

/// The same with variable tolerances and counted tests: for experiments only.
#[allow(clippy::all, rustdoc::all, dead_code)]
pub mod vbap_measured {
    #[allow(unused_imports)]
    use crate::standins::{Standins as _, Standins32 as _, Standins64 as _};
    use crate::tolerances::{get, seen};
    include!(concat!(env!("OUT_DIR"), "/vbap_measured.rs"));
    include!("access.rs");
}

/// The source as it is, for the distance between stand-ins and library.
#[allow(clippy::all, rustdoc::all)]
pub mod vbap_libm {
    include!(concat!(env!("OUT_DIR"), "/vbap_libm.rs"));
    include!("access.rs");
}
