//! A bootloader's loop over a part of NOR flash.
use fustrelan::dfu::{CallFault, Config, Dfu, Ids, Interface, Objection, Reply, StartFault, State};
use fustrelan_adapter_tests::host::{Answer, download, get, out, status, upload};
use fustrelan_adapter_tests::image;
use fustrelan_adapter_tests::nor::{Happens, Part};

const BLOCK: usize = 256;
type Device = Dfu<Part, BLOCK>;

fn config() -> Config {
    Config::new(Ids { vendor: 0x1209, product: 1, device: 0x0100 })
}

fn shipped() -> Part {
    let mut part = Part::default();
    assert_eq!(Device::format_if_blank(&mut part, &image(700)), Ok(true));
    part.powered()
}

/// A part each of whose slots was written, so that no erase is of bytes that are FFh already. The active image is `image(7000)`.
fn used() -> Part {
    let mut interface = Interface::new(Device::begin(shipped(), config()).unwrap());
    for len in [8000, 7000] {
        assert_eq!(download(&mut by(&mut interface), 0, &image(len), BLOCK), Ok(()));
    }
    interface.into_flash().powered()
}

/// How an interface answers.
fn by(interface: &mut Interface<Part, BLOCK>) -> impl FnMut([u8; 8], &[u8]) -> Answer {
    |setup, body| match interface.serve(&setup, body) {
        Reply::Ack => Some(Vec::new()),
        Reply::Data(bytes) => Some(bytes.to_vec()),
        Reply::Stall => None,
    }
}

fn ask(device: &mut Device, setup: [u8; 8], body: &[u8]) -> Answer {
    let mut out = [0; BLOCK];
    match device.handle(&setup, body, &mut out).expect("the device is whole") {
        Reply::Ack => Some(Vec::new()),
        Reply::Data(bytes) => Some(bytes.to_vec()),
        Reply::Stall => None,
    }
}

#[test]
fn a_download_is_given_back_and_found() {
    for (busy, manifest) in [(0, 0), (3, 0), (0, 4), (5, 6)] {
        let device = Device::begin(shipped(), config().busy_ms(busy).manifest_ms(manifest)).unwrap();
        let mut interface = Interface::new(device);
        let new = image(8000);
        assert_eq!(download(&mut by(&mut interface), 0, &new, BLOCK), Ok(()));
        assert_eq!(upload(&mut by(&mut interface), 0, BLOCK).unwrap(), new);
        assert!(!interface.is_over());
        interface.reset();
        assert!(interface.is_over());
        let part = interface.into_flash();
        assert_eq!(part.misuse, None);
        assert_eq!(Device::image(&part).unwrap(), new);
    }
}

#[test]
fn the_work_is_done_between_two_requests() {
    let mut interface = Interface::new(Device::begin(shipped(), config().busy_ms(5)).unwrap());
    let block = image(BLOCK);
    assert_eq!(interface.serve(&out(1, 0, 0, BLOCK), &block), Reply::Ack);
    assert_eq!(interface.serve(&get(3, 0, 0, 6), &[]), Reply::Data(&[0, 5, 0, 0, 4, 0]));
    let made = interface.device().flash().made;
    interface.work();
    assert!(interface.device().flash().made > made);
    assert_eq!(interface.device().state(), State::DownloadSync);
    let made = interface.device().flash().made;
    assert_eq!(interface.serve(&get(3, 0, 0, 6), &[]), Reply::Data(&[0, 0, 0, 0, 5, 0]));
    assert_eq!(interface.device().flash().made, made);
}

#[test]
fn the_reset_that_counts_is_the_first_after_set_configuration() {
    let mut interface = Interface::new(Device::begin(shipped(), config()).unwrap());
    interface.reset();
    interface.reset();
    assert!(!interface.is_over(), "hosts reset a device while they enumerate it");
    interface.configured(0);
    interface.reset();
    assert!(!interface.is_over());
    interface.configured(1);
    interface.reset();
    assert!(interface.is_over());
}

#[test]
fn a_detach_leads_to_dfu_mode() {
    let mut interface = Interface::new(Dfu::<Part, BLOCK>::power_on(shipped(), config().detach_ms(100)).unwrap());
    assert!(interface.is_over());
    assert_eq!(interface.serve(&out(0, 1000, 0, 0), &[]), Reply::Ack);
    assert_eq!(interface.device().due(), Some(100));
    interface.elapse(99);
    assert_eq!(interface.device().state(), State::AppDetach);
    interface.reset();
    assert_eq!(interface.device().state(), State::DfuIdle);
}

#[test]
fn a_setup_of_another_interface_is_stalled_and_changes_nothing() {
    let mut device = Device::begin(shipped(), config().interface(3)).unwrap();
    let block = image(BLOCK);
    for index in [0, 1, 0x0103, 0x0300] {
        assert_eq!(ask(&mut device, out(1, 0, index, BLOCK), &block), None);
        assert_eq!(ask(&mut device, get(3, 0, index, 6), &[]), None);
        assert!(device.would_stall(&out(1, 0, index, BLOCK)).unwrap());
    }
    assert_eq!(device.state(), State::DfuIdle);
    assert!(!device.would_stall(&out(1, 0, 3, BLOCK)).unwrap());
    assert_eq!(ask(&mut device, out(1, 0, 3, BLOCK), &block), Some(Vec::new()));
    assert_eq!(device.state(), State::DownloadSync);
}

#[test]
fn a_block_that_is_too_long_is_stalled_before_its_bytes() {
    let mut device = Device::begin(shipped(), config()).unwrap();
    assert!(device.would_stall(&out(1, 0, 0, BLOCK + 1)).unwrap());
    assert_eq!(ask(&mut device, out(1, 0, 0, BLOCK + 1), &[]), None);
    assert_eq!(status(&mut |setup, body| ask(&mut device, setup, body), 0), (10, 15));
    assert_eq!(ask(&mut device, out(4, 0, 0, 0), &[]), Some(Vec::new()));
    assert_eq!(device.state(), State::DfuIdle);
}

#[test]
fn an_image_is_checked_before_it_is_in_place() {
    let mut device = Device::begin(shipped(), config()).unwrap();
    let new = image(1001);
    for (number, block) in new.chunks(BLOCK).enumerate() {
        assert_eq!(device.closes(&out(1, number as u16, 0, block.len())), Ok(false));
        ask(&mut device, out(1, number as u16, 0, block.len()), block);
        ask(&mut device, get(3, 0, 0, 6), &[]);
    }
    let close = out(1, 4, 0, 0);
    assert_eq!(device.closes(&close), Ok(true));
    let found = device.candidate().unwrap().unwrap();
    assert_eq!([found.stored, found.held].concat(), new);
    assert_eq!(found.held.len(), 1001 % 16);
    assert_eq!(device.refuse_close(&close, Objection::File), Ok(true));
    assert_eq!(status(&mut |setup, body| ask(&mut device, setup, body), 0), (10, 2));
    assert_eq!(Device::image(device.flash()).unwrap(), image(700));
}

#[test]
fn what_a_device_can_t_begin_with_is_said() {
    assert!(matches!(Device::begin(Part::default(), config()), Err(StartFault::NoImage)));
    let fault = Device::begin(shipped(), config().least_image(0)).err().unwrap();
    assert_eq!(fault.to_string(), "the configuration is not allowed: the fewest bytes of an image are not 1 to 16777216");
    let error: Box<dyn std::error::Error> = Box::new(CallFault::NoRoom);
    assert_eq!(error.to_string(), "the buffer of the answer has fewer bytes than a block");
    let mut device = Device::begin(shipped(), config()).unwrap();
    assert_eq!(device.handle(&get(3, 0, 0, 6), &[], &mut [0; BLOCK - 1]), Err(CallFault::NoRoom));
}

#[test]
fn a_damaged_flash_is_told_and_the_next_request_is_stalled() {
    let mut interface = Interface::new(Device::begin(shipped(), config().busy_ms(5)).unwrap());
    assert_eq!(interface.serve(&out(1, 0, 0, 8), &[1; 8]), Reply::Ack);
    assert!(matches!(interface.serve(&get(3, 0, 0, 6), &[]), Reply::Data(_)));
    let len = interface.device().flash().bytes.len();
    let whole = std::mem::replace(&mut interface.device_mut().flash_mut().bytes, vec![0; len]);
    interface.work();
    assert_eq!(interface.take_fault(), Some(CallFault::NoMedium));
    // The flash reads as before: the host sees one stall, and begins again.
    interface.device_mut().flash_mut().bytes = whole;
    assert_eq!(interface.serve(&get(3, 0, 0, 6), &[]), Reply::Stall);
    assert!(matches!(interface.serve(&get(3, 0, 0, 6), &[]), Reply::Data(_)));
    assert_eq!(interface.take_fault(), None);
    // A refused request is stalled itself.
    interface.device_mut().flash_mut().bytes.fill(0);
    assert_eq!(interface.serve(&get(3, 0, 0, 6), &[]), Reply::Stall);
    assert_eq!(interface.take_fault(), Some(CallFault::NoMedium));
}

#[test]
fn a_device_begins_again_as_it_began() {
    for is_bootloader in [true, false] {
        let start = if is_bootloader { Device::begin } else { Device::power_on };
        let mut device = start(shipped(), config()).unwrap();
        let wanted = if is_bootloader { State::DfuIdle } else { State::AppIdle };
        assert_eq!(device.state(), wanted);
        // Another image came to the flash, by nobody's call.
        *device.flash_mut() = used();
        assert_eq!(device.handle(&get(3, 0, 0, 6), &[], &mut [0; BLOCK]), Err(CallFault::NoMedium));
        assert_eq!((device.restart(), device.state()), (Ok(()), wanted));
        assert!(device.handle(&get(3, 0, 0, 6), &[], &mut [0; BLOCK]).is_ok());
    }
}

// A download while this happens: how many operations it had, and whether the host was told of what went wrong. The image is the old one or
// the new one then, and the same device takes the new one once the host has cleared the error.
fn played(happens: Happens, new: &[u8]) -> (usize, bool) {
    let mut part = used();
    part.happens = happens;
    let mut interface = Interface::new(Device::begin(part, config()).unwrap());
    let ended = download(&mut by(&mut interface), 0, new, BLOCK);
    let part = interface.device().flash();
    assert_eq!(part.misuse, None, "{happens:?}");
    let (made, found) = (part.made, Device::image(part).expect("an image is active"));
    let Err((state, code)) = ended else {
        assert_eq!(found, new, "{happens:?}");
        return (made, false);
    };
    assert!(state == 10 && (3..=7).contains(&code), "{happens:?}: {state}, {code}");
    assert!(found == image(7000) || found == new, "{happens:?}");
    assert_eq!(interface.serve(&out(4, 0, 0, 0), &[]), Reply::Ack);
    assert_eq!(download(&mut by(&mut interface), 0, new, BLOCK), Ok(()), "{happens:?}");
    let part = interface.into_flash();
    assert_eq!((part.misuse, Device::image(&part)), (None, Some(new)), "{happens:?}");
    (made, true)
}

#[test]
fn a_write_that_fails_is_told_to_the_host() {
    let new = image(3000);
    let (count, _) = played(Happens::Nothing, &new);
    assert!(count > 15);
    for at in 0..count {
        assert!(played(Happens::Fails(at), &new).1, "operation {at}");
    }
}

// Of a sector whose second half is FFh already a lie of half of it is none: two of gates and headers.
#[test]
fn a_write_that_lies_is_told_to_the_host() {
    let new = image(3000);
    let (count, _) = played(Happens::Nothing, &new);
    let told = (0..count).filter(|at| played(Happens::Lies(*at), &new).1).count();
    assert!(told >= count - 3, "{told} of {count}");
}
