// Of crates/dfu_formats/src/images/gathering.rt, whose contracts are taken away.

//! Elements that are gathered from the records of a file.

use crate::formats::element::Element;
use crate::formats::fault::ImageFault;
use crate::formats::limits::{MAX_ELEMENTS, MAX_IMAGE};
use crate::memory::{Global, Vec};

/// Complete elements, sorted by address, and the element to which records still append.
#[derive(Debug, PartialEq, Eq)]
pub(crate) struct Gathering {
    complete: Vec<Element>,
    address: u64,
    bytes: Vec<u8>,
    total: usize,
}

/// Returns the number of leading `elements` that begin at or before `address`.
fn place_of(address: u32, elements: &[Element]) -> usize {
    let mut count: usize = 0;
    for element in elements {
        if address < element.address() {
            return count;
        }
        count += 1;
    }
    count
}

/// Inserts `element` into `elements`, after those with the same or a lower address.
fn insert_element(mut elements: Vec<Element>, element: Element) -> Result<Vec<Element>, ImageFault> {
    let place = place_of(element.address(), &elements);
    match elements.insert(place, element) {
        Ok(()) => Ok(elements),
        Err(_) => Err(ImageFault::NoMemory),
    }
}

/// Inserts the element of `bytes` at `address` into `elements`, unless `bytes` is empty.
fn insert_grown(
    elements: Vec<Element>,
    address: u64,
    bytes: Vec<u8>,
) -> Result<Vec<Element>, ImageFault> {
    if bytes.len() == 0 {
        return Ok(elements);
    }
    insert_element(elements, Element::new(address, bytes))
}

/// Begins an element with `bytes` at `address`, unless 1,024 elements or more are `complete`.
fn begin_element(
    alloc: Global,
    at: usize,
    total: usize,
    complete: Vec<Element>,
    address: u64,
    bytes: &[u8],
) -> Result<Gathering, ImageFault> {
    if complete.len() >= MAX_ELEMENTS {
        return Err(ImageFault::TooManyElements(at));
    }
    match Vec::from_slice(alloc, bytes) {
        Ok(bytes) => Ok(Gathering {
            complete,
            address,
            bytes,
            total,
        }),
        Err(_) => Err(ImageFault::NoMemory),
    }
}

/// Returns the address of the first element that begins before the end of its predecessor, or None if there is none.
fn shared(elements: &[Element]) -> Option<u32> {
    let mut end: u64 = 0;
    for element in elements {
        if (element.address() as u64) < end {
            return Some(element.address());
        }
        end = element.end();
    }
    None
}

impl Gathering {
    /// Returns a gathering without elements.
    pub(crate) fn new(alloc: Global) -> Gathering {
        Gathering {
            complete: Vec::new(alloc),
            address: 0,
            bytes: Vec::new(alloc),
            total: 0,
        }
    }

    /// Appends `bytes` to the growing element if they begin at its end. Otherwise completes it and begins another at `address`.
    fn grow(
        self,
        alloc: Global,
        at: usize,
        address: u64,
        bytes: &[u8],
    ) -> Result<Gathering, ImageFault> {
        let Gathering {
            complete,
            address: from,
            bytes: mut growing,
            total,
        } = self;
        let total = total + bytes.len();
        if from + growing.len() as u64 == address {
            return match growing.extend_from_slice(bytes) {
                Ok(()) => Ok(Gathering {
                    complete,
                    address: from,
                    bytes: growing,
                    total,
                }),
                Err(_) => Err(ImageFault::NoMemory),
            };
        }
        match insert_grown(complete, from, growing) {
            Ok(complete) => begin_element(alloc, at, total, complete, address, bytes),
            Err(fault) => Err(fault),
        }
    }

    /// Adds `bytes`, if there are any, at `address`. TooLarge and TooManyElements contain `at`, the number of the line, block or segment
    /// with the bytes.
    pub(crate) fn add(
        self,
        alloc: Global,
        at: usize,
        address: u64,
        bytes: &[u8],
    ) -> Result<Gathering, ImageFault> {
        if bytes.len() == 0 {
            return Ok(self);
        }
        if bytes.len() > MAX_IMAGE - self.total {
            return Err(ImageFault::TooLarge(at));
        }
        self.grow(alloc, at, address, bytes)
    }

    /// Completes the growing element, and returns all elements.
    ///
    /// # Errors
    ///
    /// Overlaps, with the address of the first element that begins before the end of its predecessor; NoMemory if an allocation was
    /// refused.
    pub(crate) fn finish(self) -> Result<Vec<Element>, ImageFault> {
        let Gathering {
            complete,
            address,
            bytes,
            ..
        } = self;
        let elements = match insert_grown(complete, address, bytes) {
            Ok(elements) => elements,
            Err(fault) => return Err(fault),
        };
        match shared(&elements) {
            Some(address) => Err(ImageFault::Overlaps(address)),
            None => Ok(elements),
        }
    }
}
