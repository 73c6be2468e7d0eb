//! What a file is: with a suffix, it says for which device it is and where its image ends (USB DFU 1.1, appendix B); without one, all of it
//! is sent, but only if nothing is known against that.

use fustrelan::formats::{Format, Looks, NotImage, look_at};
use fustrelan::suffix::{Crc, SuffixFault, read};
use fustrelan::wire::Ids;
use thiserror::Error;

/// An identifier that says nothing, in a suffix.
pub const ANY: u16 = 0xffff;

/// Why a file is refused.
#[derive(Clone, Copy, Debug, PartialEq, Eq, Error)]
pub enum FileFault {
    /// Its suffix is none, or it is a DfuSe file with one.
    #[error("{0}")]
    Suffix(#[from] SuffixFault),
    /// It is for other software: a device would be sent its text.
    #[error("it looks like {}, and is no image", name_of(.0))]
    Other(Looks),
    /// It has a suffix, and so says itself where its image ends.
    #[error("it has a suffix: it is not raw")]
    NotRaw,
    /// It has no suffix, and nobody said for which device it is.
    #[error("it has no suffix: say for which device it is, by both numbers")]
    NoTarget,
}

fn name_of(looks: &Looks) -> &'static str {
    match looks {
        Looks::Raw => "bytes",
        Looks::Of(Format::IntelHex) => "Intel HEX",
        Looks::Of(Format::SRecord) => "Motorola S-records",
        Looks::Of(Format::Uf2) => "UF2",
        Looks::Of(Format::Elf) => "an ELF file",
        Looks::Other(NotImage::DfuSe) => "a DfuSe file",
        Looks::Other(NotImage::Zip) => "a zip archive",
        Looks::Other(NotImage::Gzip) => "a gzip archive",
        Looks::Other(NotImage::Text) => "text",
        Looks::Other(NotImage::Named(_)) => "a file that was cut short or changed, by the end of its name",
    }
}

/// The file that is to be sent, with a suffix. One without a suffix is for the device `target`, of any release; with `is_raw` it is taken
/// whatever it looks like.
///
/// # Errors
///
/// In this order: `NotRaw` if it has a suffix and `is_raw` is said; `Suffix` if its suffix is broken, or it is a DfuSe file with a suffix;
/// `Other` if it has none and looks like something else than bytes; `NoTarget` if it has none and `target` says nothing of one number.
pub fn file_of(bytes: &[u8], name: &str, target: Option<Ids>, is_raw: bool) -> Result<Vec<u8>, FileFault> {
    let looks = look_at(bytes, name.as_bytes()).looks;
    match read(bytes) {
        Ok(_) if is_raw => return Err(FileFault::NotRaw),
        Ok(_) => return Ok(bytes.to_vec()),
        // What begins as a DfuSe file is none without addresses, whatever is wrong with it.
        Err(_) if looks == Looks::Other(NotImage::DfuSe) => return Err(FileFault::Other(looks)),
        Err(SuffixFault::NoSignature | SuffixFault::TooShort) => {}
        Err(fault) => return Err(fault.into()),
    }
    if looks != Looks::Raw && !is_raw {
        return Err(FileFault::Other(looks));
    }
    match target {
        Some(ids) if ids.vendor != ANY && ids.product != ANY => Ok(with_suffix(bytes, ids)),
        _ => Err(FileFault::NoTarget),
    }
}

/// An image with a suffix for any release of this device.
fn with_suffix(image: &[u8], ids: Ids) -> Vec<u8> {
    let mut file = image.to_vec();
    for number in [ANY, ids.product, ids.vendor, 0x0100] {
        file.extend_from_slice(&number.to_le_bytes());
    }
    file.extend_from_slice(b"UFD\x10");
    let mut crc = Crc::new();
    crc.update(&file);
    file.extend_from_slice(&crc.value().to_le_bytes());
    file
}
