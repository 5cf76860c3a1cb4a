//! Times the proved code beside others: in turn, in one run, least and median, in microseconds. Then says which targets are met.

mod hash;
mod inputs;
mod kem;
mod ring;
mod timing;

fn main() {
    if let Some(name) = std::env::args().nth(1) {
        return kem::profiled(&name);
    }
    timing::head();
    hash::run();
    ring::run();
    let targets = kem::run();
    println!();
    println!("| target | of | at most | by least times | by medians |");
    println!("|---|---|---|---|---|");
    targets.iter().for_each(|target| println!("{target}"));
}
