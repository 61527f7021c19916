//! "The saved image" of the specification: saving and loading.

use crate::settings::Settings;
use crate::state::State;
use crate::{ACCEPTED, BUFFER, LENGTH, SIZES, STEP, UNSOUND};

/// The length of an image, 12 + 4(p + q).
pub fn image_length(settings: &Settings) -> usize {
    12 + 4 * settings.taps()
}

/// The first 12 bytes of an image: sizes, ψ, b, B and M.
pub fn header(state: &State) -> [u8; 12] {
    let s = &state.settings;
    let m = s.m.to_le_bytes();
    [
        s.p, s.q, s.n, s.r, s.l, state.psi, state.b, state.bmax, m[0], m[1], m[2], m[3],
    ]
}

/// Saves a state: its number and, when accepted, the image's length. Refused,
/// the length is 0 and the buffer stays as it is.
pub fn save(state: &State, buffer: &mut [u8]) -> (u8, usize) {
    let number = state.examine();
    if number != ACCEPTED {
        return (number, 0);
    }
    let length = image_length(&state.settings);
    if buffer.len() < length {
        return (BUFFER, 0);
    }
    let taps = state.settings.taps();
    let mut image = header(state).to_vec();
    for &a in state.weights[..taps].iter().chain(&state.data[..taps]) {
        image.extend(a.to_le_bytes());
    }
    assert_eq!(image.len(), length);
    buffer[..length].copy_from_slice(&image);
    (ACCEPTED, length)
}

/// Loads a state: 8, 1, 8, 2, 9 in order with the fresh state, else 0 with
/// the state that the image holds.
pub fn load(bytes: &[u8]) -> (u8, State) {
    match read(bytes) {
        Ok(state) => (ACCEPTED, state),
        Err(number) => (number, State::fresh()),
    }
}

fn read(bytes: &[u8]) -> Result<State, u8> {
    if bytes.len() < 12 {
        return Err(LENGTH);
    }
    let settings = Settings {
        p: bytes[0],
        q: bytes[1],
        n: bytes[2],
        r: bytes[3],
        l: bytes[4],
        m: u32::from_le_bytes([bytes[8], bytes[9], bytes[10], bytes[11]]),
    };
    if !settings.within_limits() {
        return Err(SIZES);
    }
    if bytes.len() != image_length(&settings) {
        return Err(LENGTH);
    }
    if !settings.admitted() {
        return Err(STEP);
    }
    let numbers: Vec<i16> = bytes[12..]
        .chunks(2)
        .map(|two| i16::from_le_bytes([two[0], two[1]]))
        .collect();
    let (weights, data) = numbers.split_at(settings.taps());
    let state = State {
        settings,
        psi: bytes[5],
        b: bytes[6],
        bmax: bytes[7],
        weights: weights.to_vec(),
        data: data.to_vec(),
    };
    if !state.sound() {
        return Err(UNSOUND);
    }
    Ok(state)
}
