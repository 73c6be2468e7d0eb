//! Sends a file to a device: `cargo run --example flash -- firmware.dfu`. What it refuses, and what it says, is as of dfu-flash.
//!
//! ```text
//! flash [--device VID:PID] [--path PLACE] [--serial TEXT] [--raw] [--stand-in FLASH] FILE
//! ```
//!
//! With `--stand-in` there is no bus: the device is one in this process, and its flash is the file FLASH, which is made if it is not there.
//!
//! Statuses: 0 the image is in place; 1 refused before a byte of it was sent; 2 words that aren't understood; 3 a file failed; 4 no such
//! device; 6 the device refused the image; 7 the limits are spent; 8 the device can't tell; 9 it has another image; 10 it left, or answers
//! no more; 12 more than one device; 13 another device came back; 15 it stays in run-time mode.

use fustrelan::dfu::{Config, Ids};
use fustrelan::host::Report;
use fustrelan_nusb::file::{FileFault, file_of};
use fustrelan_nusb::session::{End, flash};
use fustrelan_nusb::stand_in::StandIn;
use std::process::ExitCode;

#[derive(Default)]
struct Words {
    file: Option<String>,
    device: Option<Ids>,
    path: Option<String>,
    serial: Option<String>,
    stand_in: Option<String>,
    is_raw: bool,
}

/// What a run ends with: a status, and why.
type Ended = (u8, String);

fn ids_of(text: &str) -> Option<Ids> {
    let (vendor, product) = text.split_once(':')?;
    let number = |digits: &str| u16::from_str_radix(digits, 16).ok();
    Some(Ids { vendor: number(vendor)?, product: number(product)?, device: 0xffff })
}

fn words() -> Option<Words> {
    let mut words = Words::default();
    let mut rest = std::env::args().skip(1);
    while let Some(word) = rest.next() {
        match word.as_str() {
            "--device" => words.device = Some(ids_of(&rest.next()?)?),
            "--path" => words.path = Some(rest.next()?),
            "--serial" => words.serial = Some(rest.next()?),
            "--stand-in" => words.stand_in = Some(rest.next()?),
            "--raw" => words.is_raw = true,
            _ if word.starts_with('-') || words.file.is_some() => return None,
            _ => words.file = Some(word),
        }
    }
    words.file.is_some().then_some(words)
}

/// What an end means, and its status.
fn meaning(end: End) -> Ended {
    let (status, words) = match end {
        End::Report(Report::Verified) => (0, "verified: after a reset the device gave the image back, and it is the file's"),
        End::Report(Report::Installed) => (0, "installed: the device took the whole image, reported that it is in place, and was reset"),
        End::Report(Report::Unconfirmed) => {
            (8, "unconfirmed: the device took the whole image and was reset; it can't tell whether it is in place")
        }
        End::Report(Report::Different) => (9, "different: after a reset the device gave back another image than the file's"),
        End::Report(Report::Refused(code)) => return (6, format!("refused: the device refused it, by {}", code.name())),
        End::Report(report) => return (7, report.name().to_string()),
        End::Gone => (10, "gone: the device left and did not come back"),
        End::Silent => (10, "silent: the device answers no more"),
        End::Several => (12, "many: the device came back with more than one setting"),
        End::Other => (13, "other: another device came back"),
        End::Stalled => (15, "stalled: in run-time mode it stalls GETSTATUS: bring it to DFU mode by hand, and run this again"),
    };
    (status, words.to_string())
}

/// The flash of a stand-in: that of an earlier run, or a new one with an image of no bytes.
fn stand_in(path: &str, ids: Ids) -> Result<StandIn, Ended> {
    if !std::path::Path::new(path).exists() {
        return Ok(StandIn::new(ids, &[]));
    }
    let bytes = std::fs::read(path).map_err(|error| (3, format!("{path}: {error}")))?;
    StandIn::of_flash(Config::new(ids), ids, bytes).map_err(|fault| (4, fault.to_string()))
}

#[cfg(not(windows))]
fn on_bus(words: &Words, file: &[u8]) -> Result<End, Ended> {
    use fustrelan_nusb::bus::{Bus, FindFault, Wanted};
    let ids = words.device.map(|ids| (ids.vendor, ids.product));
    let found = Bus::find(&Wanted { ids, place: words.path.clone(), serial: words.serial.clone() });
    let mut bus = found.map_err(|fault| match fault {
        FindFault::Several(_) => (12, fault.to_string()),
        FindFault::Missing => (4, fault.to_string()),
        FindFault::System(_) => (5, fault.to_string()),
    })?;
    flash(&mut bus, file).map_err(|fault| (1, fault.to_string()))
}

#[cfg(windows)]
fn on_bus(_: &Words, _: &[u8]) -> Result<End, Ended> {
    Err((4, "on Windows there is --stand-in alone".to_string()))
}

fn run(words: &Words) -> Result<End, Ended> {
    let name = words.file.as_deref().unwrap_or_default();
    let bytes = std::fs::read(name).map_err(|error| (3, format!("{name}: {error}")))?;
    let file = file_of(&bytes, name, words.device, words.is_raw).map_err(|fault| match fault {
        FileFault::Other(_) => (1, format!("{name}: {fault}; --raw sends it all the same")),
        _ => (1, format!("{name}: {fault}")),
    })?;
    let Some(path) = &words.stand_in else {
        return on_bus(words, &file);
    };
    let mut device = stand_in(path, Ids { vendor: 0x1209, product: 0x0001, device: 0x0100 })?;
    let end = flash(&mut device, &file).map_err(|fault| (1, fault.to_string()))?;
    std::fs::write(path, device.flash()).map_err(|error| (3, format!("{path}: {error}")))?;
    Ok(end)
}

fn main() -> ExitCode {
    let Some(words) = words() else {
        eprintln!("usage: flash [--device VID:PID] [--path PLACE] [--serial TEXT] [--raw] [--stand-in FLASH] FILE");
        return ExitCode::from(2);
    };
    let (status, said) = match run(&words) {
        Ok(end) => meaning(end),
        Err(ended) => ended,
    };
    if status == 0 {
        println!("{said}")
    } else {
        eprintln!("flash: {said}")
    }
    ExitCode::from(status)
}
