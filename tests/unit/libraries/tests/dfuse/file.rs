//! A file worked out by hand, each of its refusals, and changed files beside a plain reader.

mod image;
mod made;
mod mutated;
mod plain;
mod raw;
mod rows;
