//! Which events are refused, and as what.

use super::bench::{AMPLE, FOR_ZERO, USUAL, W, offer, pass, play, refused, world};
use super::scripts;
use dfu::link::{Event, Fate, LinkFault, OfferFault};
use fustrelan::host::{HostFault, Report};
use fustrelan::suffix::SuffixFault;
use std::fmt::Display;
use unit_program::Outcome;

fn offered(file: &'static [u8]) -> Event<'static, 'static> {
    Event::Offer {
        file,
        limits: AMPLE,
    }
}

#[test]
fn refused_events_change_nothing() -> Outcome {
    let mut world = world(USUAL)?;
    let wrong = LinkFault::BadOffer(OfferFault::Host(HostFault::WrongTarget));
    let short = LinkFault::BadOffer(OfferFault::Suffix(SuffixFault::TooShort));
    let cut = LinkFault::BadOffer(OfferFault::Suffix(SuffixFault::NoSignature));
    refused(&mut world, Event::Go(Fate::Pass), LinkFault::NoHost);
    refused(&mut world, offered(&FOR_ZERO), wrong);
    refused(&mut world, offered(&W[..15]), short);
    refused(&mut world, offered(&W[..19]), cut);
    play(&mut world, &[offer(&W), pass(7)], None);
    refused(&mut world, offered(&W), LinkFault::HostBusy);
    refused(&mut world, offered(&FOR_ZERO), LinkFault::HostBusy);
    play(&mut world, &[pass(6)], Some(Report::Installed));
    refused(&mut world, Event::Go(Fate::LostOut), LinkFault::NoHost);
    Ok(())
}

/// Each of these faults is printed as the text beside it.
fn have_texts<F: Display>(rows: &[(F, &str)]) {
    for (fault, text) in rows {
        assert_eq!(fault.to_string(), *text);
    }
}

#[rustfmt::skip]
static TEXTS: [(LinkFault, &str); 5] = [
    (LinkFault::HostBusy, "a session is live already"),
    (LinkFault::NoHost, "no session is live"),
    (LinkFault::BadOffer(OfferFault::Suffix(SuffixFault::NoSignature)), "the session is refused: the file has no DFU signature"),
    (LinkFault::BadOffer(OfferFault::Host(HostFault::CannotDownload)), "the session is refused: the device takes no downloads"),
    (LinkFault::NoMemory, "out of memory"),
];

#[test]
fn faults_have_their_texts() {
    have_texts(&TEXTS);
}

#[test]
fn script_faults_have_texts() {
    have_texts(&scripts::TEXTS);
}
