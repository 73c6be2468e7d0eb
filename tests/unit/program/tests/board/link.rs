//! A board and a host on a link, which take the events of `dfu::sim::World`.

use super::chip::{Answered, Chip};
use dfu::sim::{Event, Fate, LinkFault, OfferFault, Purpose, begin};
use fustrelan::device::{Answer, Objection};
use fustrelan::host::{Action, Host, Limits, Phase, Report, Seen};
use fustrelan::memory::Global;
use fustrelan::wire::State;

/// How often the board sees a request of some fate.
fn times_seen(fate: Fate<'_>) -> u32 {
    match fate {
        Fate::LostOut => 0,
        Fate::Twice | Fate::TwiceLostBack => 2,
        _ => 1,
    }
}

/// Whether the host hears the answer to a request of some fate.
fn is_heard(fate: Fate<'_>) -> bool {
    !matches!(
        fate,
        Fate::LostOut | Fate::LostBack | Fate::TwiceLostBack | Fate::Cut { .. }
    )
}

pub struct Link<'f> {
    pub chip: Chip,
    host: Option<Host<'f>>,
    /// The host of the last session that reported Uploaded.
    gave: Option<Host<'f>>,
}

impl<'f> Link<'f> {
    pub fn new(chip: Chip) -> Link<'f> {
        Link {
            chip,
            host: None,
            gave: None,
        }
    }

    pub fn is_live(&self) -> bool {
        self.host.is_some()
    }

    /// What the last session gave that reported Uploaded.
    pub fn uploaded(&self) -> &[u8] {
        self.gave.as_ref().map_or(&[], |host| host.uploaded())
    }

    /// An event comes: the report of the session that ends with it, if one does.
    pub fn step(&mut self, event: Event<'f, '_>) -> Result<Option<Report>, LinkFault> {
        match event {
            Event::Offer { file, limits } => return self.offer(Purpose::Install, file, limits),
            Event::OfferVerified { file, limits } => {
                return self.offer(Purpose::Verify, file, limits);
            }
            Event::Upload { limits } => return self.upload(limits),
            Event::Abort => self.live()?.abort(),
            Event::Go(fate) => return self.go(fate, None),
            Event::GoRefused { fate, objection } => return self.go(fate, Some(objection)),
            Event::Time(ms) => self.chip.elapse(Fate::Pass, ms),
            Event::Reset => {
                self.chip.usb_reset();
                return Ok(self.restarted());
            }
            Event::Cut => {
                self.chip.power_cycle();
                return Ok(self.restarted());
            }
            Event::Refuse(objection) => self.chip.refuse(objection),
        }
        Ok(None)
    }

    fn live(&mut self) -> Result<&mut Host<'f>, LinkFault> {
        self.host.as_mut().ok_or(LinkFault::NoHost)
    }

    fn offer(
        &mut self,
        purpose: Purpose,
        file: &'f [u8],
        limits: Limits,
    ) -> Result<Option<Report>, LinkFault> {
        if self.host.is_some() {
            return Err(LinkFault::HostBusy);
        }
        let functional = self.chip.asking.config.functional();
        let begun = begin(&functional, self.chip.ids, purpose, file, limits);
        self.host = Some(begun.map_err(LinkFault::BadOffer)?);
        Ok(None)
    }

    fn upload(&mut self, limits: Limits) -> Result<Option<Report>, LinkFault> {
        if self.host.is_some() {
            return Err(LinkFault::HostBusy);
        }
        let begun = Host::upload(Global, &self.chip.asking.config.functional(), limits);
        self.host = Some(begun.map_err(|fault| LinkFault::BadOffer(OfferFault::Host(fault)))?);
        Ok(None)
    }

    /// The host, if one is live, sees that the device was restarted.
    fn restarted(&mut self) -> Option<Report> {
        self.host.as_mut()?.take(Seen::Restarted);
        self.end()
    }

    /// Ends the session of a host that is done.
    fn end(&mut self) -> Option<Report> {
        match self.host.as_ref()?.phase() {
            Phase::Over(report) => {
                self.host = None;
                Some(report)
            }
            Phase::OverUploaded => {
                self.gave = self.host.take();
                Some(Report::Uploaded)
            }
            _ => None,
        }
    }

    /// The host takes its next action, of this fate. The board's program refuses the image that it closes, if it has an objection.
    fn go(
        &mut self,
        fate: Fate<'_>,
        refusing: Option<Objection>,
    ) -> Result<Option<Report>, LinkFault> {
        let Link { chip, host, .. } = self;
        let host = host.as_mut().ok_or(LinkFault::NoHost)?;
        if let Fate::Cut { .. } = fate {
            act_cut(chip, host, fate);
        } else {
            act(chip, host, fate, refusing);
        }
        Ok(self.end())
    }
}

/// Time slips in after a request or a reset. In appIDLE none counts.
fn slip(chip: &mut Chip, fate: Fate<'_>) {
    if let Fate::Slip(ms) = fate
        && chip.asking.state() != State::AppIdle
    {
        chip.elapse(Fate::Pass, ms);
    }
}

/// The action of a host in which the power goes.
fn act_cut(chip: &mut Chip, host: &mut Host<'_>, fate: Fate<'_>) {
    match host.next() {
        Action::Send { setup, body } => drop(chip.handle(fate, &setup, body)),
        Action::Wait(ms) => chip.elapse(fate, ms),
        Action::Reset => {}
        Action::Done(_) => unreachable!(),
    }
    chip.power_cycle();
    host.take(Seen::Restarted);
}

/// The action of a host in which the power stays.
fn act(chip: &mut Chip, host: &mut Host<'_>, fate: Fate<'_>, refusing: Option<Objection>) {
    match host.next() {
        Action::Send { setup, body } => {
            let answered = send(chip, fate, refusing, &setup, body);
            hear(host, answered.filter(|_| is_heard(fate)));
            slip(chip, fate);
        }
        Action::Wait(ms) => {
            chip.elapse(
                fate,
                if let Fate::Slip(other) = fate {
                    other
                } else {
                    ms
                },
            );
            host.take(Seen::Waited);
        }
        Action::Reset => {
            chip.usb_reset();
            host.take(Seen::WasReset);
            slip(chip, fate);
        }
        Action::Done(_) => unreachable!(),
    }
}

/// The board sees a request as often as its fate says; the last answer counts. Its program refuses an image at the first.
fn send(
    chip: &mut Chip,
    fate: Fate<'_>,
    refusing: Option<Objection>,
    setup: &[u8; 8],
    body: &[u8],
) -> Answered {
    let mut answered = None;
    for turn in 0..times_seen(fate) {
        answered = match refusing {
            Some(objection) if turn == 0 && chip.refuse_close(setup, objection) => {
                Some((Answer::Stall, Vec::new()))
            }
            _ => chip.handle(fate, setup, body),
        };
    }
    answered
}

/// The host hears an answer, or none.
fn hear(host: &mut Host<'_>, answered: Answered) {
    match &answered {
        None => host.take(Seen::Nothing),
        Some((Answer::Ack, _)) => host.take(Seen::Ack),
        Some((Answer::Stall, _)) => host.take(Seen::Stall),
        Some((Answer::Bytes, bytes)) => host.take(Seen::Bytes(bytes)),
    }
}
