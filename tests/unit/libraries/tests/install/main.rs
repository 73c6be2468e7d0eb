//! Rows worked out by hand: a run area of 1,024 bytes in sectors of 512, and images of which byte i is i modulo 251.

mod board;
mod edges;
mod harms;
mod rows;
