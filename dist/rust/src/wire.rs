// Of crates/dfu_wire/src/lib.rt, whose contracts are taken away.

//! The wire formats of USB device firmware upgrade (USB DFU 1.1): the functional descriptor, also in the form of DFU 1.0, the setups of the
//! seven requests, the answer to GETSTATUS, the states and status codes, and the identifiers of a device.
//!
//! No call allocates memory. Only `decode` of `Functional` and `Status`, `from_byte` of `State` and `Code`, and `Status::new` return a
//! fault.

/// Body of a `name` function. `variant_name!(self, Type: Variant, ..)` returns the name of the variant of `self` as text, and
/// `variant_name!(self, Type: Variant "text", ..)` returns the text after the variant.
#[cfg(feature = "host")]
macro_rules! variant_name {
    ($value:expr, $type:ident: $($variant:ident $(($field:tt))?),+) => {
        match $value {
            $($type::$variant $(($field))? => stringify!($variant),)+
        }
    };
    ($value:expr, $type:ident: $($variant:ident $(($field:tt))? $text:literal),+) => {
        match $value {
            $($type::$variant $(($field))? => $text,)+
        }
    };
}

#[cfg(feature = "host")]
pub(crate) use variant_name;

// Body of a `from_byte` function. It returns the variant whose number equals the byte, or the fault if there is none.
macro_rules! variant_numbered {
    ($byte:expr, $fault:expr, $type:ident: $($number:literal $variant:ident),+) => {
        match $byte {
            $($number => Ok($type::$variant),)+
            _ => Err($fault),
        }
    };
}

mod bytes;
mod codes;
mod fault;
mod functionals;
mod identifiers;
mod ids;
mod requests;
mod round_trips;
mod setups;
mod states;
mod statuses;

pub use codes::Code;
pub use fault::WireFault;
pub use functionals::Functional;
pub use identifiers::identifier;
pub use ids::Ids;
pub use requests::Request;
pub use round_trips::{asked_again, reread_functional, reread_setup, reread_status};
pub use setups::Setup;
pub use states::State;
pub use statuses::Status;
