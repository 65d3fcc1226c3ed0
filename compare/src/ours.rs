//! The proved functions, through the static library's C symbols.

use crate::answer::Outcome;

/// Whether the library stood in its place when this was built.
pub const LINKED: bool = cfg!(linked);

/// Declares each symbol as a safe function; without the library a stand-in that must not be called.
macro_rules! exports {
    ($($symbol:literal: $name:ident($($argument:ident: $type:ty),+) -> $answer:ty;)+) => {
        // SAFETY: every function takes and returns plain numbers and is proved to
        // return for all of them; a reference is written to and not kept.
        #[cfg(linked)]
        unsafe extern "C" {
            $(#[link_name = $symbol]
            pub safe fn $name($($argument: $type),+) -> $answer;)+
        }
        $(#[cfg(not(linked))]
        pub fn $name($(_: $type),+) -> $answer {
            unreachable!("{} is not linked", $symbol)
        })+
    };
}

exports! {
    "plot_sign_bit": sign_bit(x: f64) -> bool;
    "plot_magnitude": magnitude(x: f64) -> f64;
    "plot_to_bits": to_bits(x: f64) -> u64;
    "plot_from_bits": from_bits(bits: u64) -> f64;
    "plot_sqrt": sqrt(x: f64) -> f64;
    "plot_rem": rem(x: f64, y: f64) -> f64;
    "plot_sin": sin(x: f64) -> f64;
    "plot_cos": cos(x: f64) -> f64;
    "plot_sin_cos": store_sin_cos(x: f64, sin: &mut f64, cos: &mut f64) -> ();
    "plot_atan2": atan2(y: f64, x: f64) -> f64;
    "plot_to_radians": to_radians(x: f64) -> f64;
    "plot_to_degrees": to_degrees(x: f64) -> f64;
    "plot_from_seconds": store_seconds(t: f64, nanoseconds: &mut u64) -> u8;
    "plot_from_hours": store_hours(h: f64, nanoseconds: &mut u64) -> u8;
    "plot_to_seconds": to_seconds(nanoseconds: u64) -> f64;
}

pub fn sin_cos(x: f64) -> [f64; 2] {
    let [mut sin, mut cos] = [0.0; 2];
    store_sin_cos(x, &mut sin, &mut cos);
    [sin, cos]
}

/// Two calls, for `time`.
pub fn sin_and_cos(x: f64) -> [f64; 2] {
    [sin(x), cos(x)]
}

pub fn from_seconds(t: f64) -> Outcome {
    stored(t, |lent| store_seconds(t, lent))
}

pub fn from_hours(h: f64) -> Outcome {
    stored(h, |lent| store_hours(h, lent))
}

/// The number returned and the nanoseconds stored; of a refusal, which leaves the number lent to it
/// as it was, the bits that are not as they were.
fn stored(time: f64, store: impl Fn(&mut u64) -> u8) -> Outcome {
    // It varies with the input and is never 0, so nothing that is stored can be taken for it.
    let lent = time.to_bits().rotate_left(29) | 1;
    let mut nanoseconds = lent;
    let number = store(&mut nanoseconds);
    Outcome { number, nanoseconds: if number == 0 { nanoseconds } else { nanoseconds ^ lent } }
}
