//! Prints the table of times of docs/SPEED.md: ours, the source with document 01's stand-ins, and the source on
//! the platform's library, over the same inputs in the same run.

mod layouts;
mod measure;
mod numbers;
mod ramps;
mod rows;
mod sessions;
mod source;
mod table;

/// Origin of the counts: numbers.rs, `COUNTS`; rows.rs, `DIRECTIONS`.
const NOTE: &str = "Of two figures the first is of arrays of 1,024 numbers, the second of 16,384. \
    Rows are those of 4,096 drawn directions.";

fn main() {
    table::heading();
    numbers::lines();
    layouts::lines();
    rows::lines();
    ramps::lines();
    sessions::lines();
    println!();
    println!("{NOTE}");
}
