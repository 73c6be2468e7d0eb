//! The interface of DFU, as a USB stack drives it.

use crate::dfu::flash::Flash;
use crate::dfu::{CallFault, Dfu, Reply};
use crate::wire::State;

/// A device with the memory of its answers, and what each USB stack has to keep of it besides: which reset counts, and that a request is
/// stalled after a refused call.
///
/// An adapter to a stack tells it three things: a SET_CONFIGURATION, a reset of the bus, and each setup of the class for its interface,
/// whose wIndex may have any number here. Over a stack without an adapter the loop of a bootloader is this:
///
/// ```
/// use fustrelan::dfu::{Flash, Interface, Reply};
///
/// /// What comes from a stack. `Answered`: an answer is out.
/// enum Event<'s> {
///     Reset,
///     Configured(u8),
///     Setup([u8; 8], &'s [u8]),
///     Answered,
/// }
///
/// trait Stack {
///     fn next(&mut self) -> Event<'_>;
///     fn answer(&mut self, reply: Reply<'_>);
/// }
///
/// /// Comes back once a reset of the bus ended the upgrade.
/// fn upgrade<F: Flash>(stack: &mut impl Stack, dfu: &mut Interface<F, 1024>) {
///     while !dfu.is_over() {
///         match stack.next() {
///             Event::Reset => dfu.reset(),
///             Event::Configured(value) => dfu.configured(value),
///             Event::Answered => dfu.work(),
///             Event::Setup(setup, body) => {
///                 let reply = dfu.serve(&setup, body);
///                 stack.answer(reply);
///             }
///         }
///     }
/// }
/// # use fustrelan::dfu::{Config, Dfu, Ids, Memory};
/// # struct Played(Vec<Event<'static>>, usize);
/// # impl Stack for Played {
/// #     fn next(&mut self) -> Event<'_> {
/// #         self.0.pop().unwrap()
/// #     }
/// #     fn answer(&mut self, reply: Reply<'_>) {
/// #         assert_eq!(reply, Reply::Data(&[0, 0, 0, 0, 2, 0]));
/// #         self.1 += 1;
/// #     }
/// # }
/// # let mut flash = Memory([0; 4160]);
/// # Dfu::<_, 1024>::format(&mut flash, b"shipped").unwrap();
/// # let config = Config::new(Ids { vendor: 0x1209, product: 0x0001, device: 0x0100 });
/// # let mut dfu = Interface::new(Dfu::<_, 1024>::begin(flash, config).unwrap());
/// # let status = Event::Setup([0xa1, 3, 0, 0, 0, 0, 6, 0], &[]);
/// # let mut stack = Played(vec![Event::Reset, Event::Answered, status, Event::Configured(1), Event::Reset], 0);
/// # upgrade(&mut stack, &mut dfu);
/// # assert_eq!(stack.1, 1);
/// ```
pub struct Interface<F, const TRANSFER: usize> {
    device: Dfu<F, TRANSFER>,
    out: [u8; TRANSFER],
    /// A SET_CONFIGURATION came since the last reset.
    is_configured: bool,
    /// The host is to see a stall: a call between two requests was refused.
    is_refused: bool,
    fault: Option<CallFault>,
}

impl<F: Flash, const TRANSFER: usize> Interface<F, TRANSFER> {
    /// bInterfaceClass, bInterfaceSubClass and bInterfaceProtocol of DFU mode (USB DFU 1.1, section 4.2.3).
    pub const CLASS: [u8; 3] = [0xfe, 0x01, 0x02];
    /// bDescriptorType of the functional descriptor (USB DFU 1.1, section 4.1.3).
    pub const FUNCTIONAL: u8 = 0x21;

    /// The interface of a device.
    pub fn new(device: Dfu<F, TRANSFER>) -> Self {
        Interface { device, out: [0; TRANSFER], is_configured: false, is_refused: false, fault: None }
    }

    /// The device.
    pub fn device(&self) -> &Dfu<F, TRANSFER> {
        &self.device
    }

    /// The device, for a program that checks images or refuses them.
    pub fn device_mut(&mut self) -> &mut Dfu<F, TRANSFER> {
        &mut self.device
    }

    /// The flash, and no device.
    pub fn into_flash(self) -> F {
        self.device.into_flash()
    }

    /// Whether a reset of the bus ended the upgrade: the program leaves the bus, and starts the image at [`Dfu::image`].
    pub fn is_over(&self) -> bool {
        self.device.state() == State::AppIdle
    }

    /// Why a call was refused since this was asked last, if one was. The device has begun again, unless the flash has no image any more.
    pub fn take_fault(&mut self) -> Option<CallFault> {
        self.fault.take()
    }

    /// SET_CONFIGURATION came, with this value.
    pub fn configured(&mut self, value: u8) {
        self.is_configured |= value != 0;
    }

    /// The bus was reset. The first reset after a SET_CONFIGURATION counts, and no other.
    pub fn reset(&mut self) {
        if core::mem::take(&mut self.is_configured) {
            let done = self.device.usb_reset();
            self.note(done);
        }
    }

    /// As [`Dfu::work`]: call it once an answer is out.
    pub fn work(&mut self) {
        let done = self.device.work();
        self.note(done);
    }

    /// As [`Dfu::elapse`], for a device in appDETACH.
    pub fn elapse(&mut self, ms: u32) {
        let done = self.device.elapse(ms);
        self.note(done);
    }

    /// A setup of the class (bmRequestType 21h or A1h) for this interface, with its whole data stage if the host sends one, else `&[]`.
    pub fn serve(&mut self, setup: &[u8; 8], body: &[u8]) -> Reply<'_> {
        self.is_configured = true;
        if core::mem::take(&mut self.is_refused) {
            return Reply::Stall;
        }
        let mut own = *setup;
        [own[4], own[5]] = [self.device.config().interface_number(), 0];
        match self.device.handle(&own, body, &mut self.out) {
            Ok(reply) => reply,
            Err(fault) => {
                self.fault = Some(fault);
                // (If there is no image, the next call is refused too.)
                let _ = self.device.restart();
                Reply::Stall
            }
        }
    }

    // After a call between two requests. If it was refused the next request is stalled: else the host finds dfuIDLE, as if its image were
    // in place.
    fn note(&mut self, done: Result<(), CallFault>) {
        if let Err(fault) = done {
            self.fault = Some(fault);
            let _ = self.device.restart();
            self.is_refused = true;
        }
    }
}
