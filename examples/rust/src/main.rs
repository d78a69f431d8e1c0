//! Runs the bench's law for a few periods, once with a coefficient that it refuses, then with
//! readings in newtons, of which one counts as missing, and at last with an upper limit that the
//! command hits.

mod law;

use law::State;
use winder::Settings;

/// The law of document 01's bench: one state, one reading, one command. The state moves half way
/// to each reading.
fn bench_law() -> Settings {
    let mut law = Settings {
        n: 1,
        m: 1,
        p: 1,
        a: [0; 36],
        l: [0; 24],
        c: [0; 24],
        k: [0; 24],
        low: [i32::MIN; 4],
        high: [i32::MAX; 4],
    };
    law.a[0] = 65_536;
    law.l[0] = 32_768;
    law.c[0] = 65_536;
    law.k[0] = 65_536;
    law
}

/// One period: the state after it, its command, and whether clamping or limits changed a value on
/// the way to it.
fn period(law: &Settings, state: State, reading: Option<i32>) -> Result<(State, i32, bool), u32> {
    let next = law::update(law, state, [reading, None, None, None])?;
    let commands = law::command(law, next.value)?;
    let limited = next.limited || commands.limited;
    Ok((next.value, commands.value[0], limited))
}

fn shown(reading: Option<i32>) -> String {
    reading.map_or_else(|| "-".to_string(), |value| value.to_string())
}

/// What one period prints, and the state after it; a refused one leaves the state.
fn print_period(number: usize, law: &Settings, state: State, reading: Option<i32>) -> State {
    let reading_shown = shown(reading);
    match period(law, state, reading) {
        Ok((next, command, limited)) => {
            let mark = if limited { " limited" } else { "" };
            println!(
                "{number:>6} {reading_shown:>8} {:>6} {command:>8}{mark}",
                next[0]
            );
            next
        }
        Err(refusal) => {
            println!(
                "{number:>6} {reading_shown:>8} {:>6} refused by {refusal}",
                state[0]
            );
            state
        }
    }
}

fn main() {
    let law = bench_law();
    let mut state = [0; 6];
    println!("period  reading  state  command");
    for (i, reading) in [Some(101), Some(101), None, Some(-101)]
        .into_iter()
        .enumerate()
    {
        state = print_period(i + 1, &law, state, reading);
    }

    let mut out_of_range = law.clone();
    out_of_range.l[0] = 16_777_217;
    state = print_period(5, &out_of_range, state, Some(100));
    state = print_period(6, &law, state, Some(100));

    for (i, newtons) in [0.002, f32::NAN].into_iter().enumerate() {
        state = print_period(i + 7, &law, state, law::reading(newtons));
    }

    let mut narrow = law.clone();
    narrow.high[0] = 90;
    print_period(9, &narrow, state, Some(101));
}
