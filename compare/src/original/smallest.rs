//! The smallest inputs of a few ways to end, and of what a second solve says: the first of some
//! round inputs that is so.

use super::again::{faster, faster_target, found_time};
use super::ends::{End, Ended, Kind, RULES, WALKS, ended, last_time};
use super::meetings::Pursuit;
use super::second_solves::NEAR;
use crate::answer::{Answer, Walk};
use crate::inputs::scenes::{EARTH, Scene, Ship};
use crate::inputs::vectors::at;
use crate::jord::watch::{self, Notes};
use crate::lines;
use std::f64::consts::PI;

/// Steps of a walk that are shown.
const SHOWN: usize = 6;
/// Of second solves: the faster clocks, the nudges at most, and the seconds that are far off.
const CLOCK: f64 = 256.0;
const CLOCKS: [f64; 3] = [256.0, 4096.0, 65536.0];
const NUDGES: usize = 8;
const FAR: f64 = 0.4;

/// Where the own ship lies at the origin and the target so many degrees away, nearest first.
struct Family {
    degrees: fn(u32) -> f64,
    own_courses: &'static [u32],
    /// Metres a second; each list with all places.
    speeds: &'static [&'static [[u32; 2]]],
}

const COURSES: [u32; 4] = [90, 270, 0, 180];
const OWN_FASTER: &[[u32; 2]] =
    &[[2, 1], [3, 1], [4, 1], [5, 1], [6, 1], [7, 1], [8, 1], [9, 1], [10, 1]];
const TARGET_FASTER: &[[u32; 2]] =
    &[[1, 2], [1, 3], [1, 4], [1, 5], [1, 6], [1, 7], [1, 8], [1, 9], [1, 10]];
const MUCH_ALIKE: &[[u32; 2]] =
    &[[10, 9], [9, 10], [10, 10], [15, 14], [14, 15], [15, 15], [20, 19], [19, 20], [20, 20]];
const WHOLE: Family = Family {
    degrees: |count| count as f64,
    own_courses: &[90],
    speeds: &[OWN_FASTER, TARGET_FASTER, MUCH_ALIKE],
};
const THOUSANDTHS: Family = Family { degrees: |count| count as f64 / 1000.0, ..WHOLE };
/// Both courses count, and both ships are fast.
const TENS: Family = Family {
    degrees: |count| count as f64 * 10.0,
    own_courses: &COURSES,
    speeds: &[&[[10, 10], [10, 20], [20, 10], [20, 20]]],
};

pub fn show_all() {
    let [approach, intercept, longest] = &WALKS;
    let is = |end: End| move |ended: &Ended| ended.before.is_thirteen() && ended.now == end;
    show(intercept, "stands still", is(End::First));
    show(intercept, "swings", is(End::Closed));
    show(intercept, "stands still later", is(End::Later));
    show(intercept, "was found later before", |ended| ended.before == End::Later);
    show(longest, "stands still", is(End::First));
    show(longest, "swings", is(End::Closed));
    show(longest, "stands still at a greatest speed", is(End::Opposite));
    show(longest, "stands still behind us", is(End::Negative));
    show(approach, "is behind us, a nearest moment within eight days", |ended| {
        ended.now == End::Negative && is_near(ended)
    });
    show(approach, "is found at a farthest point", |ended| ended.now == End::Opposite);
    show(approach, "is found at a farthest point ahead", |ended| {
        ended.now == End::Opposite && ended.found > Some(0.0)
    });
    for kind in [intercept, longest] {
        show_nudges(kind);
        show_clocks(kind);
    }
}

/// A way to end, with the last steps of a walk that notes its corrections.
fn show(kind: &Kind, way: &str, ends_so: impl Fn(&Ended) -> bool) {
    let approaches = kind.number == WALKS[0].number;
    let family = if approaches { &TENS } else { &WHOLE };
    let mut all = round_inputs(family).map(|(input, scene)| (input, ended(kind, &scene), scene));
    let Some((input, ended, scene)) = all.find(|(_, ended, _)| ends_so(ended)) else {
        return println!("\nNo round input's `{}` {way}.", kind.name);
    };
    println!("\nSmallest input whose `{}` {way}:\n{input}", kind.name);
    println!("first: {:?} s", ended.first);
    for (rule, walk) in RULES.iter().zip([kind.before, kind.now]) {
        let Walk { number, nanoseconds, count } = walk(&scene);
        println!("{rule}: number {number}, {nanoseconds} ns, count {count}");
    }
    println!("\n{}\n", call(kind, &scene));
    if approaches {
        let times = [Some(0.0), ended.first, ended.found];
        times.iter().flatten().for_each(|time| print_apart(&scene, *time));
    } else {
        watch::read(print_steps);
    }
}

fn print_apart(scene: &Scene, seconds: f64) {
    let metres = scene.radius * Pursuit::of(scene).apart(seconds);
    println!("after {seconds} s: {:.3} km apart", metres / 1e3);
}

/// What stronger words about a faster target would have to be true of.
fn show_nudges(kind: &Kind) {
    let once = |scene: &Scene| vec![faster_target(scene, 1)];
    let often = |scene: &Scene| (1..=NUDGES).map(|nudges| faster_target(scene, nudges)).collect();
    show_second(kind, "swings, and is far off after a nudge", &WHOLE, once, |ended, times| {
        ended.now == End::Closed && is_far(ended, times)
    });
    show_second(kind, "is found, and not after a nudge", &WHOLE, once, |ended, times| {
        ended.now == End::First && is_refused(times)
    });
    show_second(kind, "is found, and far off after a nudge", &WHOLE, once, |ended, times| {
        ended.now == End::First && is_far(ended, times)
    });
    show_second(kind, "swings, and after eight nudges too", &WHOLE, often, |ended, times| {
        ended.now == End::Closed && is_refused(times)
    });
}

/// The same of faster clocks; a meeting may be nearer than their first step.
fn show_clocks(kind: &Kind) {
    let once = |scene: &Scene| vec![faster(scene, CLOCK)];
    let often = |scene: &Scene| CLOCKS.map(|clock| faster(scene, clock)).to_vec();
    show_second(kind, "swings, and is found by a faster clock", &WHOLE, once, |ended, times| {
        ended.now == End::Closed && !is_refused(times)
    });
    show_second(kind, "swings near, and by a faster clock too", &WHOLE, once, |ended, times| {
        ended.now == End::Closed && is_near(ended) && is_refused(times)
    });
    show_second(kind, "swings near, and by all clocks too", &WHOLE, often, |ended, times| {
        ended.now == End::Closed && is_near(ended) && is_refused(times)
    });
    show_second(kind, "swings, and by all clocks too", &WHOLE, often, |ended, times| {
        ended.now == End::Closed && is_refused(times)
    });
    show_second(kind, "is not found by a faster clock", &THOUSANDTHS, once, |ended, times| {
        ended.now == End::First && is_refused(times)
    });
    show_second(kind, "is far off by a faster clock", &THOUSANDTHS, once, |ended, times| {
        ended.now == End::First && is_far(ended, times)
    });
    show_second(kind, "swings, far off by a faster clock", &THOUSANDTHS, once, |ended, times| {
        ended.now == End::Closed && is_far(ended, times)
    });
}

fn is_refused(times: &[Option<f64>]) -> bool {
    times.iter().all(Option::is_none)
}

fn is_near(ended: &Ended) -> bool {
    ended.first.is_some_and(|first| first < NEAR)
}

fn is_far(ended: &Ended, times: &[Option<f64>]) -> bool {
    let apart = |time: f64| ended.first.map_or(0.0, |first| (time - first).abs());
    times.iter().flatten().any(|time| apart(*time) > FAR)
}

/// What a solve and second solves of one chase say, of these the last; times are the chase's own.
fn show_second(
    kind: &Kind,
    way: &str,
    family: &Family,
    second: impl Fn(&Scene) -> Vec<Scene>,
    is_so: impl Fn(&Ended, &[Option<f64>]) -> bool,
) {
    let times = |scene: &Scene| -> Vec<Option<f64>> {
        let clock = |other: &Scene| scene.radius / other.radius;
        let time = |other: &Scene| found_time(kind, other).map(|time| clock(other) * time);
        second(scene).iter().map(time).collect()
    };
    let is_so = |scene: &Scene| is_so(&ended(kind, scene), &times(scene));
    let Some((input, scene)) = round_inputs(family).find(|(_, scene)| is_so(scene)) else {
        return println!("\nNo round input's `{}` {way}.", kind.name);
    };
    println!("\nSmallest input whose `{}` {way}:\n{input}", kind.name);
    println!("first: {:?} s; then: {:?} s\n", ended(kind, &scene).first, times(&scene));
    for scene in [scene].iter().chain(second(&scene).last()) {
        println!("{}\n{}", call(kind, scene), Answer::from((kind.now)(scene)));
    }
}

/// The line that `probe` reads.
pub fn call(kind: &Kind, scene: &Scene) -> String {
    let words: Vec<u64> = (kind.layout)(scene).iter().map(|x| x.to_bits()).collect();
    lines::text(kind.number, &words)
}

/// An own ship at the origin and a target within twenty degrees.
pub fn degrees() -> impl Iterator<Item = (String, Scene)> {
    round_inputs(&WHOLE)
}

fn round_inputs(family: &Family) -> impl Iterator<Item = (String, Scene)> {
    let Family { degrees, own_courses, speeds } = *family;
    let places = || (1..=20).flat_map(|sum| (0..=sum).map(move |north| [north, sum - north]));
    let courses = move || places().flat_map(|place| COURSES.map(|course| (place, course)));
    speeds.iter().flat_map(move |speeds| {
        courses().flat_map(move |(place, course)| {
            own_courses.iter().flat_map(move |own_course| {
                let courses = [*own_course, course];
                speeds.iter().map(move |speeds| round_input(place.map(degrees), courses, *speeds))
            })
        })
    })
}

/// The words of an input and its scene.
fn round_input(
    [north, east]: [f64; 2],
    [own_course, course]: [u32; 2],
    [own, target]: [u32; 2],
) -> (String, Scene) {
    let radians = |degrees: f64| degrees * (PI / 180.0);
    let ship = |[north, east]: [f64; 2], course: u32, speed: u32| {
        let position = at(radians(north), radians(east));
        Ship { position, bearing: radians(course as f64), speed: speed as f64 }
    };
    let text = format!(
        "own ship at 0°N 0°E, bearing {own_course}°, {own} m/s; target at {north}°N {east}°E, \
         bearing {course}°, {target} m/s; radius {EARTH} m."
    );
    let own = ship([0.0, 0.0], own_course, own);
    let target = ship([north, east], course, target);
    (text, Scene { radius: EARTH, own, track: [own.position, target.position], target })
}

fn print_steps(notes: &Notes) {
    println!("| step | time, s | correction, s |\n|---|---|---|");
    for step in notes.calls().saturating_sub(SHOWN) + 1..=notes.calls() {
        println!("| {step} | {:?} | {:e} |", notes.time(step), notes.correction(step));
    }
    let last = last_time(notes);
    let step = last.abs().next_up() - last.abs();
    println!("\nThat is {:.2} hours; the next float is {step:e} s away.", last / 3_600.0);
}
