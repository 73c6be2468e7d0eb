//! What systems of the family of Unix have.

/// Owners, rights and places of files.
pub mod unix {
    /// Of files.
    pub mod fs {
        pub use crate::system::fs::{MetadataExt, OpenOptionsExt};
        pub use std::os::unix::fs::{PermissionsExt, fchown};
    }
}
