//! The power goes within each operation of a format and of a download.
use fustrelan::dfu::{Config, Dfu, FormatFault, Ids, Interface, Reply};
use fustrelan_adapter_tests::host::{Answer, download};
use fustrelan_adapter_tests::image;
use fustrelan_adapter_tests::nor::{Happens, Part, PartError};

const BLOCK: usize = 512;
type Device = Dfu<Part, BLOCK>;

fn by(interface: &mut Interface<Part, BLOCK>) -> impl FnMut([u8; 8], &[u8]) -> Answer {
    |setup, body| match interface.serve(&setup, body) {
        Reply::Ack => Some(Vec::new()),
        Reply::Data(bytes) => Some(bytes.to_vec()),
        Reply::Stall => None,
    }
}

fn begun(part: Part) -> Interface<Part, BLOCK> {
    Interface::new(Device::begin(part, Config::new(Ids { vendor: 0x1209, product: 1, device: 0x0100 })).expect("an image is active"))
}

#[test]
fn a_download_leaves_the_old_image_or_the_new_one() {
    let (old, new) = (image(1500), image(5003));
    let mut shipped = Part::default();
    Device::format(&mut shipped, &old).unwrap();
    let mut seen = [0; 2];
    for at in 0.. {
        let mut part = shipped.clone().powered();
        part.happens = Happens::PowerGoes(at);
        let mut interface = begun(part);
        let ended = download(&mut by(&mut interface), 0, &new, BLOCK);
        let part = interface.into_flash();
        if part.made <= at {
            assert_eq!(ended, Ok(()));
            assert!(at > 20, "{at} operations");
            break;
        }
        assert_eq!(part.misuse, None);
        let part = part.powered();
        let found = Device::image(&part).expect("an image is active");
        assert!(found == old || found == new, "operation {at}");
        seen[usize::from(found == new)] += 1;
        // The same download on what the loss of power left.
        let mut interface = begun(part);
        assert_eq!(download(&mut by(&mut interface), 0, &new, BLOCK), Ok(()), "operation {at}");
        let part = interface.into_flash();
        assert_eq!((part.misuse, Device::image(&part)), (None, Some(&new[..])), "operation {at}");
    }
    assert!(seen[0] > 20, "the old image was never left: {seen:?}");
}

#[test]
fn a_format_that_is_cut_off_can_be_made_again() {
    let first = image(2000);
    for at in 0.. {
        let mut part = Part::that(Happens::PowerGoes(at));
        let ended = Device::format(&mut part, &first);
        if part.made <= at {
            assert_eq!(ended, Ok(()));
            assert!(at > 10, "{at} operations");
            break;
        }
        assert_eq!(ended, Err(FormatFault::Failed(PartError::NoPower)));
        let mut part = part.powered();
        assert_eq!(Device::format(&mut part, &first), Ok(()));
        assert_eq!((part.misuse, Device::image(&part)), (None, Some(&first[..])));
    }
}

#[test]
fn flash_that_was_written_is_never_formatted_at_power_on() {
    let mut part = Part::default();
    assert_eq!(Device::format_if_blank(&mut part, b"one"), Ok(true));
    assert_eq!(Device::format_if_blank(&mut part, b"two"), Ok(false));
    assert_eq!(Device::image(&part), Some(&b"one"[..]));
    // A damaged board: no image is active, and it is not blank.
    part.bytes[0] = 0;
    assert_eq!(Device::image(&part), None);
    assert!(!Device::is_blank(&part));
    assert_eq!(Device::format_if_blank(&mut part, b"two"), Ok(false));
    assert_eq!(Device::image(&part), None);
}

#[test]
fn a_format_says_what_does_not_fit() {
    let mut part = Part::default();
    assert_eq!(Device::format(&mut part, &image(8193)), Err(FormatFault::TooLarge));
    assert_eq!(part.made, 0);
    part.bytes.truncate(1024);
    assert_eq!(Device::format(&mut part, &[]), Err(FormatFault::WrongSize));
    let mut part = Part::that(Happens::Lies(3));
    assert_eq!(Device::format(&mut part, &image(100)), Err(FormatFault::NotVerified));
}
