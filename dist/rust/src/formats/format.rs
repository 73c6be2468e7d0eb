// Of crates/dfu_formats/src/images/format.rt, whose contracts are taken away.

//! Formats of firmware files.

/// A format of the files that builds produce.
#[derive(Clone, Copy, Debug, PartialEq, Eq)]
pub enum Format {
    /// Intel HEX: lines that begin with `:`.
    IntelHex,
    /// S-records: lines that begin with `S`.
    SRecord,
    /// UF2: blocks of 512 bytes.
    Uf2,
    /// ELF of 32 bits, little endian.
    Elf,
}
