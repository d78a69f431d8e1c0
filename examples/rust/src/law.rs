//! The law with results as Rust has them.

use winder::Settings;

/// What a state holds; places beyond n are 0.
pub type State = [i32; 6];

/// A row of readings; `None` is an absent one.
pub type Readings = [Option<i32>; 4];

/// What the law commands; places beyond p are 0.
pub type Commands = [i32; 4];

/// What the law gives, and whether clamping or limits changed a value of it.
pub struct Given<T> {
    pub value: T,
    pub limited: bool,
}

/// A reading that its transmitter sends in newtons; none for what counts as missing.
pub fn reading(newtons: f32) -> Option<i32> {
    let mut value = 0;
    let present = winder::convert_single(newtons.to_bits(), &mut value);
    (present != 0).then_some(value)
}

/// The state after one period with these readings, or the number by which the law refuses its
/// settings.
pub fn update(settings: &Settings, state: State, readings: Readings) -> Result<Given<State>, u32> {
    let present = readings.map(|reading| u8::from(reading.is_some()));
    let values = readings.map(|reading| reading.unwrap_or(0));
    let mut next = state;
    let mut limited = 0;
    let refusal = winder::update(settings, &present, &values, &mut next, &mut limited);
    answer(refusal, next, limited)
}

/// The commands of a state, or the number by which the law refuses its settings.
pub fn command(settings: &Settings, state: State) -> Result<Given<Commands>, u32> {
    let mut commands = [0; 4];
    let mut limited = 0;
    let refusal = winder::command(settings, &state, &mut commands, &mut limited);
    answer(refusal, commands, limited)
}

fn answer<T>(refusal: u32, value: T, limited: u8) -> Result<Given<T>, u32> {
    match refusal {
        0 => Ok(Given {
            value,
            limited: limited == 1,
        }),
        number => Err(number),
    }
}
