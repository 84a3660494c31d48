//! Times the proved library and the independent reading side by side, call for call, and prints
//! the ratios. Words given to it choose the cases whose name has them; `--table` before them prints
//! the rows of the table in `docs/HOST.md` instead.

use std::process::ExitCode;

#[cfg(target_arch = "x86_64")]
fn main() -> ExitCode {
    use sisalcove_host::benchmarks::{lines, Benchmarks};
    use sisalcove_host::library::Library;
    use sisalcove_host::random;
    use sisalcove_host::reading::IndependentReading;
    use sisalcove_host::stopwatch::{Stopwatch, Timing};

    let seed = match random::seed() {
        Ok(seed) => seed,
        Err(wrong) => {
            eprintln!("{wrong}");
            return ExitCode::from(2);
        }
    };
    let mut words: Vec<String> = std::env::args().skip(1).collect();
    let table = words.first().is_some_and(|word| word == "--table");
    if table {
        words.remove(0);
    }
    let benchmarks = Benchmarks {
        left: &Library,
        right: &IndependentReading,
        watch: Stopwatch::usual(),
        seed,
        only: words.join(" "),
    };
    if table {
        print_table(&benchmarks);
        return ExitCode::SUCCESS;
    }
    println!("call for call: neither side is put in place where it is called");
    println!("{}", Timing::heading("proved", "independent"));
    benchmarks.all(|timing| println!("{timing}"));
    benchmarks.modes(|timing| println!("{timing}"));
    println!();
    println!("{}", Timing::heading("proved", "independent"));
    benchmarks.growth(|timing| println!("{timing}"));
    println!();
    println!("{}", Timing::heading("proved", "independent"));
    benchmarks.lines(|timing| {
        let (proved, independent) = lines::millions(timing);
        println!("{timing}  {proved:.1} and {independent:.1} million samples a second");
    });
    benchmarks.drawings(|timing| println!("{timing}"));
    benchmarks.pollings(|timing| println!("{timing}"));
    benchmarks.items(|timing| println!("{timing}"));
    benchmarks.areas(|timing| println!("{timing}"));
    benchmarks.summaries(|timing| println!("{timing}"));
    benchmarks.joins(|timing| println!("{timing}"));
    benchmarks.rounds(|timing| println!("{timing}"));
    benchmarks.stores(|timing| println!("{timing}"));
    ExitCode::SUCCESS
}

/// The rows of the table in `docs/HOST.md`.
#[cfg(target_arch = "x86_64")]
fn print_table(
    benchmarks: &sisalcove_host::benchmarks::Benchmarks<
        sisalcove_host::library::Library,
        sisalcove_host::reading::IndependentReading,
    >,
) {
    println!("| Case | Ratio |");
    println!("|---|---|");
    // Two sets of cases have the listing, each beside its own.
    let mut told = Vec::new();
    let mut tell = |timing: &sisalcove_host::stopwatch::Timing| {
        if !told.contains(&timing.name) {
            println!("{}", timing.row());
            told.push(timing.name.clone());
        }
    };
    benchmarks.all(&mut tell);
    benchmarks.modes(&mut tell);
    benchmarks.summaries(&mut tell);
    benchmarks.joins(&mut tell);
    benchmarks.rounds(&mut tell);
    benchmarks.stores(&mut tell);
    benchmarks.lines(&mut tell);
    benchmarks.drawings(&mut tell);
    benchmarks.pollings(&mut tell);
    benchmarks.items(&mut tell);
    benchmarks.areas(&mut tell);
}

#[cfg(not(target_arch = "x86_64"))]
fn main() -> ExitCode {
    eprintln!("the proved library is for x86-64 alone; host/bench times it under an emulator");
    ExitCode::from(2)
}
