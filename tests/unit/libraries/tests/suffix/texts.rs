//! What each fault is printed as.

use fustrelan::suffix::SuffixFault;

pub static TEXTS: [(SuffixFault, &str); 10] = [
    (
        SuffixFault::TooShort,
        "the file has under 16 bytes, too few for a suffix",
    ),
    (SuffixFault::NoSignature, "the file has no DFU signature"),
    (
        SuffixFault::BadLength,
        "the suffix's length is under 16 or over the file's",
    ),
    (SuffixFault::DfuSe, "the file is a DfuSe file"),
    (
        SuffixFault::BadCrc,
        "the file's CRC differs from the one in its suffix",
    ),
    (
        SuffixFault::AlreadySuffixed,
        "the file has a suffix already",
    ),
    (
        SuffixFault::TooLarge,
        "the file with its suffix has over 16777216 bytes",
    ),
    (SuffixFault::NoMemory, "out of memory"),
    (SuffixFault::Read, "the file can't be read"),
    (SuffixFault::Write, "the file can't be written"),
];
