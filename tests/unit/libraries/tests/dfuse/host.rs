//! Sessions worked out by hand, and sessions over a model of a device with each fault at each action.

mod clean;
mod dialogue;
mod ended;
mod faults;
mod flash;
mod lost;
mod model;
mod played;
mod refused;
