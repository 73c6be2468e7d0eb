//! Sessions with a device in this process, whose transfers are lost and which leaves; and what comes back in its place.
use fustrelan::dfu::{Config, Ids};
use fustrelan::host::{HostFault, Report};
use fustrelan::wire::WireFault;
use fustrelan_nusb::begin::BeginFault;
use fustrelan_nusb::file::file_of;
use fustrelan_nusb::port::{Back, Found, Outcome, Port};
use fustrelan_nusb::session::{End, flash};
use fustrelan_nusb::stand_in::{Comes, Fate, StandIn};

const IDS: Ids = Ids { vendor: 0x1209, product: 1, device: 0x0100 };

fn image(len: usize) -> Vec<u8> {
    (0..len as u32).map(|at| (at.wrapping_mul(2_654_435_761) >> 13) as u8).collect()
}

fn file(len: usize) -> Vec<u8> {
    file_of(&image(len), "image.bin", Some(IDS), false).unwrap()
}

/// How many transfers a clean session has.
fn clean() -> usize {
    let mut device = StandIn::new(IDS, b"old");
    assert_eq!(flash(&mut device, &file(1500)), Ok(End::Report(Report::Verified)));
    assert_eq!(device.image().unwrap(), image(1500));
    device.asked.len()
}

#[test]
fn each_transfer_is_lost_in_turn() {
    let count = clean();
    assert!(count > 20);
    for fate in [Fate::Lost, Fate::LostBack, Fate::Leaves] {
        for at in 0..count {
            let mut device = StandIn::new(IDS, b"old");
            device.fates = vec![(at, fate)];
            assert_eq!(flash(&mut device, &file(1500)), Ok(End::Report(Report::Verified)), "{fate:?} {at}");
            assert_eq!(device.image().unwrap(), image(1500), "{fate:?} {at}");
        }
    }
}

// Once a block was sent, a device in run-time mode may run another image, and is brought to DFU mode before it is compared.
#[test]
fn another_device_gets_no_block() {
    for at in 0..clean() {
        let mut device = StandIn::new(IDS, b"old");
        device.fates = vec![(at, Fate::Leaves)];
        let mut before = Before { device, left: None };
        assert_eq!(flash(&mut before, &file(1500)), Ok(End::Other), "{at}");
        let is_sent = |setup: &[u8; 8]| setup[..2] == [0x21, 1];
        let (ours, others) = before.device.asked.split_at(before.left.unwrap());
        assert!(!others.iter().any(is_sent), "{at}: {others:x?}");
        assert!(ours.iter().any(is_sent) || others.is_empty(), "{at}: {others:x?}");
    }
}

/// A device, in whose place another one comes once it left, in the mode that it was in: after so many setups.
struct Before {
    device: StandIn,
    left: Option<usize>,
}

impl Port for Before {
    fn found(&self) -> &Found {
        self.device.found()
    }
    fn transfer(&mut self, setup: &[u8; 8], body: &[u8], into: &mut [u8]) -> Outcome {
        let outcome = self.device.transfer(setup, body, into);
        if outcome == Outcome::Gone {
            self.left = Some(self.device.asked.len());
            let other = Found { serial: "S2".to_string(), ..self.device.found().clone() };
            self.device.comes = Some(Comes::Another(other));
        }
        outcome
    }
    fn reset(&mut self) -> bool {
        self.device.reset()
    }
    fn wait(&mut self, ms: u32) {
        self.device.wait(ms);
    }
    fn reopen(&mut self) -> Back {
        self.device.reopen()
    }
}

#[test]
fn what_does_not_come_back_ends_the_session() {
    for (comes, end) in [(Comes::Nothing, End::Gone), (Comes::Several, End::Several)] {
        let mut device = StandIn::new(IDS, b"old");
        (device.fates, device.comes) = (vec![(1, Fate::Leaves)], Some(comes));
        assert_eq!(flash(&mut device, &file(100)), Ok(end));
        assert_eq!(device.image(), Some(&b"old"[..]));
    }
}

#[test]
fn a_device_that_answers_no_more_is_given_up() {
    let mut device = StandIn::new(IDS, b"old");
    device.fates = (5..1000).map(|at| (at, Fate::Lost)).collect();
    assert_eq!(flash(&mut device, &file(100)), Ok(End::Silent));
}

#[test]
fn what_may_not_begin_is_refused() {
    let other = Ids { product: 2, ..IDS };
    let mut device = StandIn::new(IDS, b"old");
    let for_another = file_of(&image(9), "image.bin", Some(other), false).unwrap();
    assert_eq!(flash(&mut device, &for_another), Err(BeginFault::Host(HostFault::WrongTarget)));
    device.found_mut().functional[7..].copy_from_slice(&[0x1a, 0x01]);
    assert_eq!(flash(&mut device, &file(9)), Err(BeginFault::DfuSe));
    device.found_mut().functional.clear();
    assert_eq!(flash(&mut device, &file(9)), Err(BeginFault::Functional(WireFault::Short)));
    assert!(matches!(flash(&mut device, b"no suffix at all"), Err(BeginFault::File(_))));
    assert_eq!((device.asked.len(), device.image()), (0, Some(&b"old"[..])));
}

#[test]
fn another_descriptor_in_dfu_mode_begins_the_session_anew() {
    let mut device = StandIn::new(IDS, b"old");
    // In run-time mode it says blocks of 64 bytes.
    device.found_mut().functional[5..7].copy_from_slice(&[64, 0]);
    let mut seen = Changing { device };
    assert_eq!(flash(&mut seen, &file(700)), Ok(End::Report(Report::Verified)));
    assert_eq!(seen.device.image().unwrap(), image(700));
    let blocks = seen.device.asked.iter().filter(|setup| setup[..2] == [0x21, 1] && setup[6..] != [0, 0]);
    assert_eq!(blocks.map(|setup| u16::from_le_bytes([setup[6], setup[7]])).collect::<Vec<_>>(), [256, 256, 188]);
}

/// A device that has its own functional descriptor in DFU mode alone.
struct Changing {
    device: StandIn,
}

impl Port for Changing {
    fn found(&self) -> &Found {
        self.device.found()
    }
    fn transfer(&mut self, setup: &[u8; 8], body: &[u8], into: &mut [u8]) -> Outcome {
        self.device.transfer(setup, body, into)
    }
    fn reset(&mut self) -> bool {
        self.device.reset()
    }
    fn wait(&mut self, ms: u32) {
        self.device.wait(ms);
    }
    fn reopen(&mut self) -> Back {
        let back = self.device.reopen();
        let size: u16 = if self.device.found().is_upgrade { 256 } else { 64 };
        self.device.found_mut().functional[5..7].copy_from_slice(&size.to_le_bytes());
        back
    }
}

#[test]
fn a_device_that_detaches_by_itself_or_is_not_tolerant_takes_it_too() {
    for config in [
        Config::new(IDS).detaches_itself(),
        Config::new(IDS).without_tolerance().manifest_ms(3),
        Config::new(IDS).busy_ms(7).manifest_ms(7),
        Config::new(IDS).without_upload(),
    ] {
        let flash_of = StandIn::new(IDS, b"old").flash().to_vec();
        let mut device = StandIn::of_flash(config, IDS, flash_of).unwrap();
        let wanted = if device.found().functional[2] & 2 == 0 { Report::Installed } else { Report::Verified };
        assert_eq!(flash(&mut device, &file(1000)), Ok(End::Report(wanted)));
        assert_eq!(device.image().unwrap(), image(1000));
    }
}
