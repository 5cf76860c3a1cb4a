//! The present tree and the older one by their functions, and a row for what both do.

use std::fmt::Debug;

use crate::inputs::COUNT;
use crate::timing::{Side, by_turns, side};

// FUNCTIONS: name and address of each function that the archives export, as bench/against lists them
include!(env!("AGAINST_FUNCTIONS"));

pub struct Tree {
    prefix: &'static str,
}

pub const NOW: Tree = Tree { prefix: "now_" };
const BEFORE: Tree = Tree { prefix: "before_" };

impl Tree {
    /// The function of that name, if this tree has it. That its type is F is the caller's word.
    pub fn find<F>(&self, name: &str) -> Option<F> {
        let name = format!("{}{name}", self.prefix);
        let (_, function) = FUNCTIONS.iter().find(|(known, _)| *known == name)?;
        Some(unsafe { std::mem::transmute_copy(function) })
    }
}

/// Whether one of the trees has it.
pub fn anywhere(name: &str) -> bool {
    [NOW, BEFORE]
        .iter()
        .any(|tree| tree.find::<fn()>(name).is_some())
}

/// A call that is made again and again on the same buffers, each time with its next input.
pub struct Work<B, A> {
    buffers: B,
    call: Box<dyn FnMut(&mut B) -> A>,
}

pub fn work<B, A>(buffers: B, call: impl FnMut(&mut B) -> A + 'static) -> Option<Work<B, A>> {
    let call = Box::new(call);
    Some(Work { buffers, call })
}

impl<B, A> Work<B, A> {
    fn once(&mut self) -> A {
        (self.call)(&mut self.buffers)
    }
}

pub struct Row {
    what: &'static str,
    sides: [Option<Side<'static>>; 2],
}

/// What both trees do, in turns of so many calls. First each must answer what is due, and leave in its buffers what the other does.
pub fn row<B, A, F>(what: &'static str, calls: usize, due: A, make: F) -> Row
where
    B: PartialEq + 'static,
    A: PartialEq + Debug + 'static,
    F: Fn(&Tree) -> Option<Work<B, A>>,
{
    let mut trees = [make(&NOW), make(&BEFORE)];
    for input in 0..COUNT {
        let answers = trees.each_mut().map(|tree| tree.as_mut().map(Work::once));
        if answers.iter().flatten().any(|answer| *answer != due) {
            stop(&format!(
                "{what}: now and before the answers to input {input} are {answers:?}, and {due:?} is due"
            ));
        }
        if let [Some(now), Some(before)] = &trees
            && now.buffers != before.buffers
        {
            stop(&format!(
                "{what}: what input {input} gives now and before differs"
            ));
        }
    }
    let timed = |mut work: Work<B, A>| side(calls, move || work.once());
    Row {
        what,
        sides: trees.map(|tree| tree.map(timed)),
    }
}

fn stop(why: &str) -> ! {
    eprintln!("bench/against: {why}. Nothing was timed.");
    std::process::exit(1)
}

/// The table, and below it what neither tree has.
pub fn print(rows: Vec<Row>) {
    let (rows, neither): (Vec<Row>, Vec<Row>) =
        (rows.into_iter()).partition(|row| row.sides.iter().any(Option::is_some));
    println!("| what | now, least | before | ratio | now, median | before | ratio |");
    println!("|---|---|---|---|---|---|---|");
    rows.into_iter().for_each(Row::print);
    for row in neither {
        println!("\nIn neither tree: {}.", row.what);
    }
}

impl Row {
    fn print(self) {
        let times = match self.sides {
            [Some(now), Some(before)] => by_turns([now, before]).map(Some),
            [now, before] => [now, before].map(|side| side.map(|side| by_turns([side])[0])),
        };
        let (least, median) = (
            cells(times.map(|times| times.map(|times| times.least))),
            cells(times.map(|times| times.map(|times| times.median))),
        );
        println!("| {} | {least} | {median} |", self.what);
    }
}

/// Both times and their ratio; a dash where a tree has no such function.
fn cells(times: [Option<f64>; 2]) -> String {
    let [now, before] = times.map(|time| time.map_or("-".into(), |time| format!("{time:.3}")));
    let ratio = match times {
        [Some(now), Some(before)] => format!("{:.3}", now / before),
        _ => "-".into(),
    };
    format!("{now} | {before} | {ratio}")
}
