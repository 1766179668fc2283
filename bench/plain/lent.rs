//! The device that C keeps and lends to a call for each event.
use core::mem::{align_of, size_of};
pub use device::Device;

#[path = "device.rs"]
mod device;

const _: () = {
    // What `bench/device.c` lends: `PLAIN_CELLS` numbers of 64 bits.
    let lent = 20 * size_of::<u64>();
    assert!(size_of::<Device>() <= lent && align_of::<Device>() <= align_of::<u64>());
};
