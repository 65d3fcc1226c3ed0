//! Stands in for `original` where the published source is missing.

use crate::function::Function;

pub const BUILT: bool = false;
pub const FUNCTIONS: &[Function] = &[];
pub const SPHERE: &[Function] = &[];
pub const NINE: &[Function] = &[];

/// Commands that are refused before they get here.
macro_rules! refused {
    ($($name:ident::$function:ident($($argument:ty),*) -> $answer:ty;)+) => {
        $(pub mod $name {
            pub fn $function($(_: $argument),*) -> $answer {
                unreachable!("there is no original")
            }
        })+
    };
}

refused! {
    answering::run() -> std::io::Result<()>;
    boards::run(u64) -> std::io::Result<bool>;
    chases::run(u64) -> ();
    cost::run() -> std::io::Result<()>;
    costs::run() -> std::io::Result<bool>;
    plot::run() -> std::io::Result<()>;
    plots::run(u64) -> std::io::Result<bool>;
    solves::run() -> std::io::Result<bool>;
    speeds::run() -> std::io::Result<bool>;
    stored::write(&str, &str) -> std::io::Result<()>;
    thirteen::run(u64) -> ();
    whole::run(u64) -> Result<bool, String>;
}
