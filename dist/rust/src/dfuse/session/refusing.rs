// Of crates/dfuse_host/src/refusing.rt, whose contracts are taken away.

//! Checks of a plan. A session refuses a plan that fails one of them.

use crate::dfuse::session::fault::PlanFault;
use crate::dfuse::session::image::end_of;
use crate::dfuse::session::plan::Plan;
use crate::dfuse::file::Element;
use crate::dfuse::memory::Access;

/// Returns true if `image` has no element, or if one of its elements has no bytes.
fn is_empty(image: &[Element<'_>]) -> bool {
    image.len() == 0 || has_empty(image)
}

/// Returns true if an element of `image` has no bytes.
fn has_empty(image: &[Element<'_>]) -> bool {
    for element in image {
        if element.bytes.len() == 0 {
            return true;
        }
    }
    false
}

/// Returns true if no element of `image` begins before the previous one begins.
fn ascends(image: &[Element<'_>]) -> bool {
    let mut start = 0;
    for element in image {
        if element.address < start {
            return false;
        }
        start = element.address;
    }
    true
}

/// Returns true if no element of `image` begins before the previous one ends.
fn are_apart(image: &[Element<'_>]) -> bool {
    let mut end = 0;
    for element in image {
        if (element.address as u64) < end {
            return false;
        }
        end = end_of(element);
    }
    true
}

impl Plan<'_> {
    /// Returns true if each page of the image grants the access `wanted`.
    fn grants(&self, wanted: Access) -> bool {
        for element in self.image {
            if !self
                .map
                .grants(wanted, element.address as u64, end_of(element))
            {
                return false;
            }
        }
        true
    }

    /// Returns the plan's first fault as an error, in the order of `PlanFault`.
    pub(crate) fn check(&self) -> Result<(), PlanFault> {
        let wants = |is_readable: bool, is_erasable: bool, is_writable: bool| Access {
            is_readable,
            is_erasable,
            is_writable,
        };
        if self.transfer == 0 {
            return Err(PlanFault::NoTransferSize);
        }
        if is_empty(self.image) {
            return Err(PlanFault::EmptyImage);
        }
        if !ascends(self.image) {
            return Err(PlanFault::NotInOrder);
        }
        if !are_apart(self.image) {
            return Err(PlanFault::Overlapping);
        }
        if !self.grants(wants(false, false, false)) {
            return Err(PlanFault::OutsideTheMap);
        }
        if !self.grants(wants(false, false, true)) {
            return Err(PlanFault::NotWritable);
        }
        if !self.grants(wants(false, true, false)) {
            return Err(PlanFault::NotErasable);
        }
        if !self.grants(wants(true, false, false)) {
            return Err(PlanFault::NotReadable);
        }
        Ok(())
    }
}
