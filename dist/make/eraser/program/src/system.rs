//! What the program asks of the system, in the form in which its sources ask: what takes memory may be refused and says so, and what
//! opens files, reads or prints goes over a value that can do that. [`Machine`] is the system itself; a test may bring its own.

pub mod alloc;
pub mod buffer;
pub mod clap;
pub mod env;
pub mod fs;
pub mod hex;
pub mod io;
mod machine;
pub mod os;
pub mod prelude;
pub mod process;
mod reason;
mod refusing;
pub mod rt;
pub mod text;

pub use machine::Machine;
pub use refusing::Refusing;

/// `format!(in alloc; "..", ..)`: a text, or that its memory was refused.
macro_rules! format {
    (in $alloc:expr; $($words:tt)*) => {
        $crate::system::text::String::formatted($alloc, ::core::format_args!($($words)*))
    };
}

pub(crate) use format;
