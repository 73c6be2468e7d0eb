// Of crates/dfu_boot/src/trial/standing.rt, whose contracts are taken away.

//! Standing of the images of a medium: settled, or one image on trial.

/// Standing in which no image is on trial.
#[derive(Clone, Copy, Debug, PartialEq, Eq)]
pub struct Settled {
    /// Offset of the active image's slot.
    pub slot: u32,
    /// True if the active image is confirmed.
    pub is_confirmed: bool,
}

/// Image on trial, and the confirmed image beside it.
#[derive(Clone, Copy, Debug, PartialEq, Eq)]
pub struct Trial {
    /// Offset of the slot of the image on trial.
    pub slot: u32,
    /// Offset of the slot of the confirmed image, which becomes active again if the image on trial is not confirmed.
    pub base: u32,
    /// Number of recorded starts of the image on trial, from 0 to the number of tries.
    pub starts: u32,
}

/// Standing of the images of a medium: settled, or on trial.
#[derive(Clone, Copy, Debug, PartialEq, Eq)]
pub enum Standing {
    /// No image is on trial, and the active image runs.
    Settled(Settled),
    /// The newer image is on trial.
    OnTrial(Trial),
}
