//! Makes modules of this crate from the published files: text for text, line for line.

use std::{fs, path::Path};

/// The source's features, known to the compiler and all off.
pub const FEATURES: &str = r#""serde", "uom", "geo-types", "geo-traits""#;

const FILES: [&str; 12] = [
    "numbers.rs",
    "angle.rs",
    "length.rs",
    "speed.rs",
    "vec3.rs",
    "mat33.rs",
    "positions.rs",
    "vehicle.rs",
    "spherical/base.rs",
    "spherical/great_circle.rs",
    "spherical/minor_arc.rs",
    "spherical/sphere.rs",
];

/// Document 01's functions in the place of the standard library's.
const GROUND: [(&str, &str); 3] =
    [(".sin()", ".ground_sin()"), (".cos()", ".ground_cos()"), (".atan2(", ".ground_atan2(")];
/// On the first line of a file that calls them; lines keep their numbers.
const GROUND_IN_SCOPE: &str = "use crate::jord::shim::Ground as _; ";

/// Starts of lines that declare something private of a file or of a type.
const PRIVATE: [&str; 3] = ["fn ", "const ", "    const "];

/// Replaced in one file: what needs the unpublished type `ChordLength`.
const UNPUBLISHED: (&str, &str, &str) = ("spherical/minor_arc.rs", "{ChordLength, Side}", "{Side}");
/// Left out of the same file, for the same reason.
const CUT_METHOD: &str = "    pub fn distance_to(";

/// What stands in a file so many times, and what takes its place.
type Change = (&'static str, &'static str, usize);

/// The file that requests alter.
const SPHERE: &str = "spherical/sphere.rs";
/// Altered in it.
const REQUESTS: [Change; 2] = [
    // 2026-03: half a circle is PI times the radius.
    ("return self.radius * 2.0;", "return self.radius * PI;", 1),
    // 2026-05: a corrected time that equals the time before it is accepted too.
    (
        "if fi.abs() < INTERCEPT_NR_EPSILON {",
        "if fi.abs() < INTERCEPT_NR_EPSILON || ti1_secs == ti_secs {",
        2,
    ),
];

/// A second copy of it, whose walks note what they do.
const WATCHED: &str = "spherical/watched.rs";
/// A third, which notes too and has the published rules.
const BEFORE: &str = "spherical/before.rs";
/// What stands in these copies, and the same with a note.
const WATCHES: [Change; 7] = [
    ("move |t: f64| -> f64 {", "move |t: f64| -> f64 { watch::time(t);", 2),
    ("move |t_secs: f64| -> f64 {", "move |t_secs: f64| -> f64 { watch::time(t_secs);", 1),
    ("let fi = f / df;", "let fi = watch::correction(f / df);", 2),
    ("if d == 0.0 {", "if d == 0.0 { watch::flat();", 1),
    ("return Some(x);", "return Some(watch::accepted(x));", 1),
    ("-1.0 // no convergence", "watch::spent(-1.0) // no convergence", 2),
    ("Some(Duration::from_secs_f64(t_intercept_secs))", "watch::duration(t_intercept_secs)", 2),
];
/// On their first line.
const WATCH_IN_SCOPE: &str = "use crate::jord::watch; ";

/// No function that the standard library leaves to the platform may be called.
const FOREIGN: [&str; 24] = [
    "sin", "cos", "tan", "sin_cos", "asin", "acos", "atan", "atan2", "sinh", "cosh", "tanh",
    "asinh", "acosh", "atanh", "exp", "exp2", "exp_m1", "ln", "log", "log2", "log10", "powf",
    "powi", "hypot",
];

/// Writes each published file as a module into a folder.
pub fn transform(source: &Path, folder: &Path) {
    fs::create_dir_all(folder.join("spherical")).expect("the build's folder takes a folder");
    for file in FILES {
        let from = source.join(file);
        println!("cargo::rerun-if-changed={}", from.display());
        let text = fs::read_to_string(&from).unwrap_or_else(|e| panic!("{}: {e}", from.display()));
        let module = transformed(file, &text);
        assert_eq!(foreign(&module), None, "{file} still calls a function of the platform");
        assert_eq!(module.lines().count(), text.lines().count(), "{file} has lost its lines");
        if file == SPHERE {
            write_spheres(folder, &module);
        } else {
            write(folder, file, module);
        }
    }
}

/// The three copies of the file that requests alter.
fn write_spheres(folder: &Path, published: &str) {
    let altered = REQUESTS.iter().fold(published.to_owned(), replaced);
    write(folder, BEFORE, watched(published));
    write(folder, WATCHED, watched(&altered));
    write(folder, SPHERE, altered);
}

fn write(folder: &Path, file: &str, module: String) {
    fs::write(folder.join(file), module).expect("the build's folder takes a file");
}

fn transformed(file: &str, text: &str) -> String {
    let text = if file == UNPUBLISHED.0 { published_only(text) } else { text.into() };
    let lines: Vec<String> = text.lines().map(line).collect();
    let module = lines.join("\n") + "\n";
    if module.contains(".ground_") { GROUND_IN_SCOPE.to_owned() + &module } else { module }
}

/// A line of code with the replacements; a comment stays as it is.
fn line(text: &str) -> String {
    let (code, comment) = text.split_at(text.find("//").unwrap_or(text.len()));
    let mut code = code.replace("crate::", "crate::jord::");
    for (theirs, ours) in GROUND {
        code = code.replace(theirs, ours);
    }
    if PRIVATE.iter().any(|start| code.starts_with(start)) {
        code.insert_str(code.len() - code.trim_start().len(), "pub(crate) ");
    }
    code + comment
}

/// The module with the notes, each in the place meant for it.
fn watched(module: &str) -> String {
    WATCH_IN_SCOPE.to_owned() + &WATCHES.iter().fold(module.to_owned(), replaced)
}

/// A text with one change made, if it can be made as often as meant.
fn replaced(text: String, (theirs, ours, times): &Change) -> String {
    assert_eq!(text.matches(theirs).count(), *times, "{theirs} is not there {times} times");
    text.replace(theirs, ours)
}

/// Without what needs an unpublished type.
fn published_only(text: &str) -> String {
    let (file, imports, published) = UNPUBLISHED;
    assert_eq!(text.matches(imports).count(), 1, "{file} does not import {imports} once");
    without_method(&text.replace(imports, published), CUT_METHOD)
}

/// Blanks a method and the comment above it, so that lines keep their numbers.
fn without_method(text: &str, start: &str) -> String {
    let mut lines: Vec<&str> = text.lines().collect();
    let head = lines.iter().position(|line| line.starts_with(start)).expect("the method is there");
    let above = lines[..head].iter().rev().take_while(|line| line.starts_with("    ///")).count();
    let length = lines[head..].iter().position(|line| *line == "    }").expect("the method ends");
    lines[head - above..=head + length].fill("");
    lines.join("\n") + "\n"
}

/// The first call left to the platform, as a method or by its path.
fn foreign(module: &str) -> Option<String> {
    let calls = FOREIGN.iter().flat_map(|name| [format!(".{name}("), format!("::{name}(")]);
    let code: Vec<&str> = module.lines().map(|line| line.split("//").next().unwrap()).collect();
    calls.into_iter().find(|call| code.iter().any(|line| line.contains(call)))
}
