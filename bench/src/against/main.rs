//! Times the present tree beside an older commit: in turn, in one run, least and median, in microseconds. bench/against builds it.

#[path = "../inputs.rs"]
mod inputs;
#[path = "../timing.rs"]
#[allow(dead_code)]
mod timing;

mod calls;
mod inner;
mod kem;
mod together;
mod trees;

fn main() {
    // answers are compared as a row is made, so all of them before anything is timed
    let rows = [calls::rows(), inner::rows(), kem::rows()];
    trees::print(rows.into_iter().flatten().collect());
}
