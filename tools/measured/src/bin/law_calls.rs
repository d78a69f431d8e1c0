//! Calls of the law, of one implementation: `law_calls first|second CALL n m p COUNT`, where CALL is update, command, or 2, 3 or 4 for an update
//! refused by that number. Prints the last call's result; a further word `each` has every call's printed.

use std::env;
use std::hint::black_box;

use measured::group::{Law, VALUES};
use second::law::{self, Readings, Settings, State};

fn main() {
    let words: Vec<String> = env::args().skip(1).collect();
    let [library, call, n, m, p, count, rest @ ..] = words.as_slice() else {
        panic!("law_calls first|second update|command|2|3|4 n m p COUNT [each]");
    };
    let size = |word: &String| word.parse().expect("a number");
    let law = refused(Law::new(size(n), size(m), size(p)), call);
    let run = Run {
        count: size(count),
        each: !rest.is_empty(),
    };
    match (library.as_str(), call.as_str()) {
        ("first", "command") => {
            run.command(|x, out, limited| winder::command(&law.settings, x, out, limited));
        }
        ("first", _) => run.update(law.start, |x, limited| {
            winder::update(&law.settings, &[1; 4], &VALUES, x, limited)
        }),
        (_, "command") => {
            let settings = law.second_settings();
            run.command(|x, out, limited| second_command(&settings, x, out, limited));
        }
        _ => {
            let settings = law.second_settings();
            run.update(law.start, |x, limited| second_update(&settings, x, limited));
        }
    }
}

/// The law with settings that the call's number refuses, at the last place that is looked at.
fn refused(mut law: Law, call: &str) -> Law {
    let settings = &mut law.settings;
    match call {
        "2" => settings.p = 5,
        "3" => settings.k[(settings.p - 1) * 6 + settings.n - 1] = 16_777_217,
        "4" => settings.low[settings.p - 1] = settings.high[settings.p - 1] + 1,
        _ => {}
    }
    law
}

struct Run {
    count: usize,
    each: bool,
}

impl Run {
    /// Each update gets the state that the one before gave.
    fn update(&self, start: State, mut call: impl FnMut(&mut State, &mut u8) -> u32) {
        let mut state = start;
        let mut limited = 0;
        let mut answer = 0;
        for _ in 0..self.count {
            answer = call(black_box(&mut state), black_box(&mut limited));
            if self.each {
                println!("{answer} {state:?} {limited}");
            }
        }
        println!("{answer} {state:?} {limited}");
    }

    /// The states of the commands differ in their first place.
    fn command(&self, mut call: impl FnMut(&State, &mut [i32; 4], &mut u8) -> u32) {
        let mut state = [100; 6];
        let mut commands = [0; 4];
        let mut limited = 0;
        let mut answer = 0;
        for _ in 0..self.count {
            state[0] += 1;
            answer = call(
                black_box(&state),
                black_box(&mut commands),
                black_box(&mut limited),
            );
            if self.each {
                println!("{answer} {commands:?} {limited}");
            }
        }
        println!("{answer} {commands:?} {limited}");
    }
}

fn second_update(settings: &Settings, state: &mut State, limited: &mut u8) -> u32 {
    let readings = Readings {
        marks: 15,
        values: VALUES,
    };
    match law::update(settings, state, &readings) {
        Ok(updated) => {
            *state = updated.state;
            *limited = updated.limited.into();
            0
        }
        Err(refusal) => refusal.number().into(),
    }
}

fn second_command(
    settings: &Settings,
    state: &State,
    commands: &mut [i32; 4],
    limited: &mut u8,
) -> u32 {
    match law::command(settings, state) {
        Ok(commanded) => {
            *commands = commanded.values;
            *limited = commanded.limited.into();
            0
        }
        Err(refusal) => refusal.number().into(),
    }
}
