//! The panner's source with document 01's stand-ins, and what is made with it: case lists for
//! the replaying programs, layouts as flat records, and the session written twice.

pub mod call_line;
pub mod call_lists;
pub mod chosen_calls;
pub mod chosen_layouts;
pub mod edges;
pub mod functions;
pub mod generators;
pub mod history;
pub mod layout_line;
pub mod layouts;
pub mod libm;
pub mod lists;
pub mod made_records;
pub mod made_sessions;
pub mod open_hulls;
pub mod ramps;
pub mod random;
pub mod random_layouts;
pub mod rationale;
pub mod record;
pub mod rehearsal;
pub mod row_directions;
pub mod row_lists;
pub mod rows;
pub mod selftest;
pub mod session;
pub mod source;
pub mod standins;
pub mod tolerances;
pub mod values;
