// SPDX-License-Identifier: Apache-2.0
#![doc = include_str!("../README.md")]
#![deny(missing_docs)]
#![forbid(unsafe_code)]

#[doc(inline)]
pub use covretin::*;

/// That a feature of the crate is not here.
macro_rules! not_here {
    ($($feature:literal is $what:literal)*) => {$(
        #[cfg(all(feature = $feature, not(doc)))]
        compile_error!(concat!("the feature `", $feature, "` of vhost, ", $what, ", is not in Covretin: it has the vhost-user part alone"));
    )*};
}

not_here! {
    "vhost-kern" is "the kernel's devices"
    "vhost-net" is "the kernel's network card"
    "vhost-vdpa" is "the kernel's vDPA"
    "vhost-vsock" is "the kernel's socket device"
    "xen" is "memory of Xen"
}
