//! The benchmark: the built library and the Rust on the same sheets.

#[path = "bench/clock.rs"]
mod clock;
#[allow(dead_code)]
mod draft;
#[allow(dead_code)]
mod format;
#[path = "bench/library.rs"]
mod library;
#[path = "bench/measure.rs"]
mod measure;
#[allow(dead_code)]
mod random;
#[path = "bench/shapes.rs"]
mod shapes;

use std::process::ExitCode;
use std::time::Duration;

use format::{LIST_LIMIT, RECORD};
use measure::{agreed, clearing, measure, Effort, Times};
use shapes::{Shape, FULL, SHAPES};

const USAGE: &str = "bench [--shape NAME] [--seeds N] [--quick] [--calls N]";

/// The sizes at which growth is measured.
const SIZES: [usize; 5] = [64, 128, 256, 512, FULL];

/// What is measured of a sheet in one pass.
const PASS: Effort = Effort {
    rounds: 100,
    limit: Duration::from_millis(100),
};

struct Options {
    shape: Option<String>,
    seeds: usize,
    passes: usize,
    /// No measuring: so many calls of the library on each shape, for a profiler.
    calls: Option<usize>,
}

fn main() -> ExitCode {
    let arguments: Vec<String> = std::env::args().skip(1).collect();
    match options(&arguments).and_then(|options| run(&options)) {
        Ok(()) => ExitCode::SUCCESS,
        Err(why) => {
            eprintln!("{why}");
            ExitCode::FAILURE
        }
    }
}

fn options(arguments: &[String]) -> Result<Options, String> {
    let (mut shape, mut seeds, mut calls, mut quick) = (None, None, None, false);
    let mut rest = arguments.iter();
    while let Some(argument) = rest.next() {
        let mut value = || rest.next().ok_or(USAGE);
        let number = |text: &String| text.parse::<usize>().map_err(|_| USAGE);
        match argument.as_str() {
            "--shape" => shape = Some(value()?.clone()),
            "--seeds" => seeds = Some(number(value()?)?.max(1)),
            "--calls" => calls = Some(number(value()?)?),
            "--quick" => quick = true,
            _ => return Err(USAGE.to_string()),
        }
    }
    Ok(Options {
        shape,
        seeds: seeds.unwrap_or(if quick { 2 } else { 5 }),
        passes: if quick { 1 } else { 4 },
        calls,
    })
}

fn run(options: &Options) -> Result<(), String> {
    let wanted = |shape: &&Shape| options.shape.as_ref().is_none_or(|name| name == shape.name);
    let shapes: Vec<&Shape> = SHAPES.iter().filter(wanted).collect();
    if shapes.is_empty() {
        let names: Vec<&str> = SHAPES.iter().map(|shape| shape.name).collect();
        return Err(format!("the shapes are {}", names.join(", ")));
    }
    if let Some(calls) = options.calls {
        shapes.iter().for_each(|shape| call(shape, calls));
        return Ok(());
    }
    println!(
        "Best of up to {} rounds, worst of {} seeds, microseconds. The list of {} bytes is not cleared between calls",
        options.passes * PASS.rounds,
        options.seeds,
        LIST_LIMIT
    );
    println!(
        "(clearing it would take {:.2}); what the library clears for itself is in its times.",
        clearing()
    );
    println!();
    ratios(&shapes, options)?;
    println!();
    growth(&shapes, options)
}

/// Calls the library alone.
fn call(shape: &Shape, calls: usize) {
    let (sheet, names) = shape.sheet(shape.records, 0);
    let mut list = vec![0; LIST_LIMIT];
    for _ in 0..calls {
        library::check(&sheet, &names, &mut list);
    }
}

/// One shape at one size: the worst of all seeds.
#[derive(Clone, Copy)]
struct Worst {
    records: usize,
    violations: usize,
    /// Of the seed with the greatest ratio to the ready tree.
    times: Times,
    to_tree: f64,
    to_whole: f64,
    /// The library's longest time.
    longest: f64,
}

impl Worst {
    fn or(self, other: Worst) -> Worst {
        let worse = if other.to_tree > self.to_tree {
            other
        } else {
            self
        };
        Worst {
            to_whole: self.to_whole.max(other.to_whole),
            longest: self.longest.max(other.longest),
            ..worse
        }
    }
}

/// A shape at several sizes. The passes lie apart in time, so that a busy spell of the machine does not meet all rounds of a sheet.
fn worst(shape: &Shape, sizes: &[usize], options: &Options) -> Result<Vec<Worst>, String> {
    let mut sheets = Vec::new();
    for size in sizes {
        for seed in 0..options.seeds {
            sheets.push(Sheet::new(shape, *size, seed as u64)?);
        }
    }
    for _ in 0..options.passes {
        for sheet in &mut sheets {
            sheet.measure();
        }
    }
    let of_size = sheets.chunks(options.seeds);
    let worst = of_size.filter_map(|seeds| seeds.iter().map(Sheet::result).reduce(Worst::or));
    Ok(worst.collect())
}

/// A sheet on which library and Rust agree, with the best times so far.
struct Sheet {
    sheet: Vec<u8>,
    names: Vec<u8>,
    violations: usize,
    times: Times,
}

impl Sheet {
    fn new(shape: &Shape, most: usize, seed: u64) -> Result<Sheet, String> {
        let (sheet, names) = shape.sheet(most, seed);
        let violations =
            agreed(&sheet, &names).map_err(|why| format!("{}, seed {seed}: {why}", shape.name))?;
        Ok(Sheet {
            sheet,
            names,
            violations,
            times: Times::NONE,
        })
    }

    fn measure(&mut self) {
        let times = measure(&self.sheet, &self.names, PASS);
        self.times = self.times.best(times);
    }

    fn result(&self) -> Worst {
        Worst {
            records: self.sheet.len() / RECORD,
            violations: self.violations,
            times: self.times,
            to_tree: self.times.library / self.times.tree,
            to_whole: self.times.library / self.times.whole,
            longest: self.times.library,
        }
    }
}

fn ratios(shapes: &[&Shape], options: &Options) -> Result<(), String> {
    println!("| Shape | | Records | Violations | Library | Ready tree | Whole way | To the tree | To the whole way |");
    println!("|---|---|---:|---:|---:|---:|---:|---:|---:|");
    for shape in shapes {
        let worst = worst(shape, &[shape.records], options)?[0];
        println!(
            "| {} | {} | {} | {} | {:.1} | {:.1} | {:.1} | {:.2} | {:.2} |",
            shape.name,
            shape.what,
            worst.records,
            worst.violations,
            worst.times.library,
            worst.times.tree,
            worst.times.whole,
            worst.to_tree,
            worst.to_whole
        );
    }
    Ok(())
}

/// The library's times by size, how they grow at the last doubling, and how the ratio to the whole way moves.
fn growth(shapes: &[&Shape], options: &Options) -> Result<(), String> {
    let sizes: Vec<String> = SIZES.iter().map(|size| size.to_string()).collect();
    println!(
        "| Library by records | {} | Last doubling | To the whole way at 64 | at {FULL} |",
        sizes.join(" | ")
    );
    println!("|---|{}", "---:|".repeat(SIZES.len() + 3));
    for shape in shapes {
        let row = worst(shape, &SIZES, options)?;
        let times: Vec<String> = row
            .iter()
            .map(|one| format!("{:.1}", one.longest))
            .collect();
        let (first, half, full) = (&row[0], &row[SIZES.len() - 2], &row[SIZES.len() - 1]);
        println!(
            "| {} | {} | {:.1} | {:.2} | {:.2} |",
            shape.name,
            times.join(" | "),
            full.longest / half.longest,
            first.to_whole,
            full.to_whole
        );
    }
    Ok(())
}
