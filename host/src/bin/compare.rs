//! Holds the proved library to the independent reading in every comparison, and ends with the
//! line `N passed, 0 failed`. Words given to it choose the comparisons whose name has them.

use std::process::ExitCode;

#[cfg(target_arch = "x86_64")]
fn main() -> ExitCode {
    use sisalcove_host::compare::{self, run, Plan};
    use sisalcove_host::library::Library;
    use sisalcove_host::random;
    use sisalcove_host::reading::IndependentReading;

    let seed = match random::seed() {
        Ok(seed) => seed,
        Err(wrong) => {
            eprintln!("{wrong}");
            return ExitCode::from(2);
        }
    };
    println!("the proved library (left) and the independent reading (right), seed {seed:#x}");
    let only = std::env::args().skip(1).collect::<Vec<_>>().join(" ");
    let plan = Plan::full(seed);
    let (left, right) = (&Library, &IndependentReading);
    // Each line is one set of calls; a rustfmt that joins them would hide which are there.
    #[rustfmt::skip]
    let verdicts = [
        run(compare::checks(), left, right, &plan, &only),
        run(compare::lines::checks(), left, right, &plan, &only),
        run(compare::drawings::checks(), left, right, &plan, &only),
        run(compare::pollings::checks(), left, right, &plan, &only),
        run(compare::items::checks(), left, right, &plan, &only),
        run(compare::areas::checks(), left, right, &plan, &only),
        run(compare::summaries::checks(), left, right, &plan, &only),
        run(compare::joins::checks(), left, right, &plan, &only),
        run(compare::way::checks(), left, right, &plan, &only),
        run(compare::rounds::checks(), left, right, &plan, &only),
        run(compare::stores::checks(), left, right, &plan, &only),
    ];
    let passed: usize = verdicts.iter().map(|(passed, _)| passed).sum();
    let failed: usize = verdicts.iter().map(|(_, failed)| failed).sum();
    println!("{passed} passed, {failed} failed");
    match failed {
        0 => ExitCode::SUCCESS,
        _ => ExitCode::FAILURE,
    }
}

#[cfg(not(target_arch = "x86_64"))]
fn main() -> ExitCode {
    eprintln!("the proved library is for x86-64 alone; host/test compares it under an emulator");
    ExitCode::from(2)
}
