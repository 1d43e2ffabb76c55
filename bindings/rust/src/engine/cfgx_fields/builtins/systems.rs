// Made of crates/cfgx_fields/src/builtins/systems.rt
// by bindings/rust/engine/make, which leaves its contracts out. Nobody edits this file.

//! The named operating systems.

use crate::engine::cfgx_fields::Os;
use crate::engine::rattle::alloc::Allocator;

impl<'a, A: Allocator> Os<'a, A> {
    /// The operating system `aix`.
    pub const fn aix() -> Self {
        Self::new_const("aix")
    }

    /// The operating system `amdhsa`.
    pub const fn amdhsa() -> Self {
        Self::new_const("amdhsa")
    }

    /// The operating system `android`.
    pub const fn android() -> Self {
        Self::new_const("android")
    }

    /// The operating system `cuda`.
    pub const fn cuda() -> Self {
        Self::new_const("cuda")
    }

    /// The operating system `cygwin`.
    pub const fn cygwin() -> Self {
        Self::new_const("cygwin")
    }

    /// The operating system `dragonfly`.
    pub const fn dragonfly() -> Self {
        Self::new_const("dragonfly")
    }

    /// The operating system `emscripten`.
    pub const fn emscripten() -> Self {
        Self::new_const("emscripten")
    }

    /// The operating system `espidf`.
    pub const fn espidf() -> Self {
        Self::new_const("espidf")
    }

    /// The operating system `freebsd`.
    pub const fn freebsd() -> Self {
        Self::new_const("freebsd")
    }

    /// The operating system `fuchsia`.
    pub const fn fuchsia() -> Self {
        Self::new_const("fuchsia")
    }

    /// The operating system `haiku`.
    pub const fn haiku() -> Self {
        Self::new_const("haiku")
    }

    /// The operating system `helenos`.
    pub const fn helenos() -> Self {
        Self::new_const("helenos")
    }

    /// The operating system `hermit`.
    pub const fn hermit() -> Self {
        Self::new_const("hermit")
    }

    /// The operating system `horizon`.
    pub const fn horizon() -> Self {
        Self::new_const("horizon")
    }

    /// The operating system `hurd`.
    pub const fn hurd() -> Self {
        Self::new_const("hurd")
    }

    /// The operating system `illumos`.
    pub const fn illumos() -> Self {
        Self::new_const("illumos")
    }

    /// The operating system `ios`.
    pub const fn ios() -> Self {
        Self::new_const("ios")
    }

    /// The operating system `l4re`.
    pub const fn l4re() -> Self {
        Self::new_const("l4re")
    }

    /// The operating system `linux`.
    pub const fn linux() -> Self {
        Self::new_const("linux")
    }

    /// The operating system `lynxos178`.
    pub const fn lynxos178() -> Self {
        Self::new_const("lynxos178")
    }

    /// The operating system `macos`.
    pub const fn macos() -> Self {
        Self::new_const("macos")
    }

    /// The operating system `managarm`.
    pub const fn managarm() -> Self {
        Self::new_const("managarm")
    }

    /// The operating system `motor`.
    pub const fn motor() -> Self {
        Self::new_const("motor")
    }

    /// The operating system `netbsd`.
    pub const fn netbsd() -> Self {
        Self::new_const("netbsd")
    }

    /// The operating system `nto`.
    pub const fn nto() -> Self {
        Self::new_const("nto")
    }

    /// The operating system `nuttx`.
    pub const fn nuttx() -> Self {
        Self::new_const("nuttx")
    }

    /// The operating system `openbsd`.
    pub const fn openbsd() -> Self {
        Self::new_const("openbsd")
    }

    /// The operating system `psp`.
    pub const fn psp() -> Self {
        Self::new_const("psp")
    }

    /// The operating system `psx`.
    pub const fn psx() -> Self {
        Self::new_const("psx")
    }

    /// The operating system `qnx`.
    pub const fn qnx() -> Self {
        Self::new_const("qnx")
    }

    /// The operating system `qurt`.
    pub const fn qurt() -> Self {
        Self::new_const("qurt")
    }

    /// The operating system `redox`.
    pub const fn redox() -> Self {
        Self::new_const("redox")
    }

    /// The operating system `rtems`.
    pub const fn rtems() -> Self {
        Self::new_const("rtems")
    }

    /// The operating system `solaris`.
    pub const fn solaris() -> Self {
        Self::new_const("solaris")
    }

    /// The operating system `solid_asp3`.
    pub const fn solid_asp3() -> Self {
        Self::new_const("solid_asp3")
    }

    /// The operating system `teeos`.
    pub const fn teeos() -> Self {
        Self::new_const("teeos")
    }

    /// The operating system `trusty`.
    pub const fn trusty() -> Self {
        Self::new_const("trusty")
    }

    /// The operating system `tvos`.
    pub const fn tvos() -> Self {
        Self::new_const("tvos")
    }

    /// The operating system `uefi`.
    pub const fn uefi() -> Self {
        Self::new_const("uefi")
    }

    /// The operating system `unknown`.
    pub const fn unknown() -> Self {
        Self::new_const("unknown")
    }

    /// The operating system `vexos`.
    pub const fn vexos() -> Self {
        Self::new_const("vexos")
    }

    /// The operating system `visionos`.
    pub const fn visionos() -> Self {
        Self::new_const("visionos")
    }

    /// The operating system `vita`.
    pub const fn vita() -> Self {
        Self::new_const("vita")
    }

    /// The operating system `vxworks`.
    pub const fn vxworks() -> Self {
        Self::new_const("vxworks")
    }

    /// The operating system `wasi`.
    pub const fn wasi() -> Self {
        Self::new_const("wasi")
    }

    /// The operating system `watchos`.
    pub const fn watchos() -> Self {
        Self::new_const("watchos")
    }

    /// The operating system `windows`.
    pub const fn windows() -> Self {
        Self::new_const("windows")
    }

    /// The operating system `xous`.
    pub const fn xous() -> Self {
        Self::new_const("xous")
    }

    /// The operating system `zkvm`.
    pub const fn zkvm() -> Self {
        Self::new_const("zkvm")
    }
}
