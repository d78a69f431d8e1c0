//! What every file with cases of planted faults tries: that all its cases hold
//! without a fault, and that each fault breaks its own case and no other.

use std::env;
use std::process::Command;

use second::fault::{self, Fault};

/// A fault's name, and whether what it breaks holds.
pub type Case = (&'static str, fn() -> bool);

/// Without a fault all cases hold. The test that calls this must be named
/// `cases_hold` and stand in no module, since the other one runs it by name.
pub fn hold(cases: &[Case]) {
    fault::plant_from_environment().unwrap();
    let holds = |&(_, case): &Case| case();
    let broken: Vec<&str> = cases
        .iter()
        .filter(|case| !holds(case))
        .map(|case| case.0)
        .collect();
    assert!(broken.is_empty(), "broken: {}.", broken.join(" "));
}

/// Runs the test `cases_hold` of the calling file once for each fault, in
/// processes of their own, since a fault once planted stays.
pub fn each_breaks_its_case_alone(names: &[(&str, Fault)], cases: &[Case]) {
    for ((name, _), (case, _)) in names.iter().zip(cases) {
        assert_eq!(name, case);
        let output = Command::new(env::current_exe().unwrap())
            .args(["--exact", "cases_hold", "--nocapture"])
            .env(fault::VARIABLE, name)
            .env("RUST_BACKTRACE", "0")
            .output()
            .unwrap();
        let printed = [output.stdout, output.stderr].concat();
        let printed = String::from_utf8(printed).unwrap();
        let broken = printed.contains(&format!("broken: {name}."));
        assert_eq!(broken, cfg!(feature = "faults"), "{printed}");
    }
}
