//! A device on flash that is awaited, and one whose operations are carried out by nobody's call.
use fustrelan::dfu::{CallFault, Config, Dfu, Flash, Ids, Operation, Progress, ReadFlash, Reply, State, Unit};
use fustrelan_adapter_tests::host::{Answer, download, get, out, upload};
use fustrelan_adapter_tests::image;
use fustrelan_adapter_tests::nor::{Part, SlowPart};
use std::future::Future;
use std::pin::pin;
use std::task::{Context, Poll, Waker};

const BLOCK: usize = 256;
type Slow = Dfu<SlowPart, BLOCK>;

fn config() -> Config {
    Config::new(Ids { vendor: 0x1209, product: 1, device: 0x0100 }).busy_ms(4)
}

/// What a future comes to, and how often it had to be polled.
fn awaited<T>(future: impl Future<Output = T>) -> (T, usize) {
    let mut future = pin!(future);
    let mut context = Context::from_waker(Waker::noop());
    for polls in 1.. {
        if let Poll::Ready(value) = future.as_mut().poll(&mut context) {
            return (value, polls);
        }
    }
    unreachable!()
}

fn shipped() -> SlowPart {
    let mut part = SlowPart::default();
    let (formatted, polls) = awaited(Slow::format_async(&mut part, &image(700)));
    assert_eq!(formatted, Ok(()));
    assert_eq!(polls, part.0.made + 1);
    part
}

fn answer(reply: Reply<'_>) -> Answer {
    match reply {
        Reply::Ack => Some(Vec::new()),
        Reply::Data(bytes) => Some(bytes.to_vec()),
        Reply::Stall => None,
    }
}

#[test]
fn a_download_awaits_the_flash() {
    let mut device = Slow::begin(shipped(), config()).unwrap();
    let new = image(5000);
    let mut most = 0;
    let mut by = |setup: [u8; 8], body: &[u8]| {
        let mut out = [0; BLOCK];
        let (reply, polls) = awaited(device.handle_async(&setup, body, &mut out));
        most = most.max(polls);
        answer(reply.expect("the device is whole"))
    };
    assert_eq!(download(&mut by, 0, &new, BLOCK), Ok(()));
    assert_eq!(upload(&mut by, 0, BLOCK).unwrap(), new);
    assert!(most > 2, "the flash was not awaited");
    assert_eq!(awaited(device.usb_reset_async()).0, Ok(()));
    assert_eq!(device.state(), State::AppIdle);
    let part = device.into_flash();
    assert_eq!(part.0.misuse, None);
    assert_eq!(Slow::image(&part).unwrap(), new);
}

#[test]
fn what_was_dropped_within_an_operation_ends_the_download() {
    let mut device = Slow::begin(shipped(), config()).unwrap();
    let (mut answer_room, block) = ([0; BLOCK], image(BLOCK));
    let (taken, _) = awaited(device.handle_async(&out(1, 0, 0, BLOCK), &block, &mut answer_room));
    assert_eq!(taken, Ok(Reply::Ack));
    let (_, polls) = awaited(device.handle_async(&get(3, 0, 0, 6), &[], &mut answer_room));
    assert_eq!((polls, device.state()), (1, State::DownloadBusy));
    {
        let mut work = pin!(device.work_async());
        assert!(work.as_mut().poll(&mut Context::from_waker(Waker::noop())).is_pending());
    }
    let made = device.flash().0.made;
    let (status, _) = awaited(device.handle_async(&get(3, 0, 0, 6), &[], &mut answer_room));
    let Ok(Reply::Data([code, _, _, _, state, _])) = status else { panic!("{status:?}") };
    assert!((3..=7).contains(code) && *state == 10, "{code}, {state}");
    assert_eq!(device.flash().0.made, made, "it was made again");
    assert_eq!(Slow::image(device.flash()).unwrap(), image(700));
}

/// Flash that this program writes by itself, between two calls.
struct Lent(Part);

impl ReadFlash for Lent {
    type Error = ();
    const UNIT: Unit = <Part as ReadFlash>::UNIT;
    const SECTOR: u32 = <Part as ReadFlash>::SECTOR;

    fn bytes(&self) -> &[u8] {
        &self.0.bytes
    }
}

// Carries out the operations of a call, one at a time, until there is an answer.
fn steps(device: &mut Dfu<Lent, BLOCK>, out: &mut [u8]) -> Answer {
    loop {
        let mut bytes = [0; 256];
        let operation = device.pending(&mut bytes).expect("an operation is due");
        let part = &mut device.flash_mut().0;
        let result = match operation {
            Operation::Erase { at, len } => {
                assert_eq!(len, 1024);
                part.erase(at)
            }
            Operation::Program { at, bytes } => part.program(at, bytes),
        };
        if let Progress::Replied(reply) = device.done(result, out).expect("an operation was due") {
            return answer(reply);
        }
    }
}

#[test]
fn a_program_carries_out_operations_by_itself() {
    let mut device = Dfu::<Lent, BLOCK>::begin(Lent(shipped().0), config()).unwrap();
    let new = image(3000);
    let mut by = |setup: [u8; 8], body: &[u8]| {
        let mut out = [0; BLOCK];
        if let Some(ms) = device.due() {
            assert_eq!(device.pass(ms), Ok(Progress::Writes));
            assert_eq!(device.request(&setup, body, &mut out), Err(CallFault::Writes));
            steps(&mut device, &mut out);
        }
        match device.request(&setup, body, &mut out).expect("the device is whole") {
            Progress::Replied(reply) => answer(reply),
            Progress::Writes => steps(&mut device, &mut out),
        }
    };
    assert_eq!(download(&mut by, 0, &new, BLOCK), Ok(()));
    assert_eq!(device.pending(&mut [0; 256]), None);
    assert_eq!(device.done(Ok::<(), ()>(()), &mut [0; 6]), Err(CallFault::NoDevice));
    let part = device.into_flash();
    assert_eq!(part.0.misuse, None);
    assert_eq!(Dfu::<Lent, BLOCK>::image(&part).unwrap(), new);
}
