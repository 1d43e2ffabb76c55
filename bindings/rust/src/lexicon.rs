//! The triples of [`target_lexicon`] as targets.
//!
//! A triple says less about a target than `rustc` does: it has no ABI, no atomics and no panic
//! strategy, so a predicate on one of these is false. Each other predicate has the value that it
//! has in `cfg-expr` 0.20.10 for the same triple. The rules below are those that its answers show,
//! to each value of each key over the parts of triples.

use crate::expr::{TargetMatcher, TargetPredicate};
use crate::targets::Endian;
pub use target_lexicon;
use target_lexicon::{
    Architecture, Endianness, Environment, Mips32Architecture, Mips64Architecture, OperatingSystem,
    Triple, Vendor,
};

/// A triple may differ from the row of the same name: `docs/RUST.md` of the repository has a list.
impl TargetMatcher for Triple {
    fn matches(&self, tp: &TargetPredicate) -> bool {
        match tp {
            TargetPredicate::Abi(_) | TargetPredicate::HasAtomic(_) | TargetPredicate::Panic(_) => {
                false
            }
            TargetPredicate::Arch(arch) => has_architecture(self, arch.as_str()),
            TargetPredicate::Endian(endian) => has_byte_order(self, *endian),
            TargetPredicate::Env(env) => has_environment(self, env.as_str()),
            TargetPredicate::Family(family) => has_family(self, family.as_str()),
            TargetPredicate::Os(os) => has_system(self, os.as_str()),
            TargetPredicate::PointerWidth(bits) => width_of(self) == Some(*bits),
            TargetPredicate::Vendor(vendor) => has_vendor(self, vendor.as_str()),
        }
    }
}

/// Returns whether `text` is the architecture of the triple, as rustc calls it, or as the triple
/// spells it.
fn has_architecture(triple: &Triple, text: &str) -> bool {
    use Architecture::{
        AmdGcn, Arm, Asmjs, Bpfeb, Bpfel, Mips32, Mips64, Powerpc64, Powerpc64le, Sparc64, Sparcv9,
        Wasm32, X86_32, X86_64, X86_64h,
    };
    use Mips32Architecture::{Mipsisa32r6, Mipsisa32r6el};
    use Mips64Architecture::{Mipsisa64r6, Mipsisa64r6el};
    let own = triple.architecture;
    match text {
        "amdgpu" => own == AmdGcn,
        "arm" => matches!(own, Arm(_)),
        "bpf" => matches!(own, Bpfeb | Bpfel),
        "mips32r6" => matches!(own, Mips32(Mipsisa32r6 | Mipsisa32r6el)),
        "mips64r6" => matches!(own, Mips64(Mipsisa64r6 | Mipsisa64r6el)),
        "powerpc64" => matches!(own, Powerpc64 | Powerpc64le),
        "sparc64" => matches!(own, Sparc64 | Sparcv9),
        "wasm32" => matches!(own, Asmjs | Wasm32),
        "x86" => matches!(own, X86_32(_)),
        "x86_64" => matches!(own, X86_64 | X86_64h),
        _ => text.parse().is_ok_and(|named| is_like(own, named)),
    }
}

/// Returns whether two architectures are the same, but for a variant that rustc does not name.
fn is_like(own: Architecture, named: Architecture) -> bool {
    use Architecture::{Aarch64, Mips32, Mips64, Riscv32, Riscv64};
    matches!(
        (own, named),
        (Aarch64(_), Aarch64(_))
            | (Mips32(_), Mips32(_))
            | (Mips64(_), Mips64(_))
            | (Riscv32(_), Riscv32(_))
            | (Riscv64(_), Riscv64(_))
    ) || own == named
}

/// Returns whether the architecture of the triple has this byte order.
fn has_byte_order(triple: &Triple, endian: Endian) -> bool {
    let named = match endian {
        Endian::big => Endianness::Big,
        Endian::little => Endianness::Little,
    };
    triple.architecture.endianness() == Ok(named)
}

/// Returns the number of bits of a pointer, if it is known. Two environments have pointers of 32
/// bits on an architecture with longer ones.
fn width_of(triple: &Triple) -> Option<u8> {
    match triple.environment {
        Environment::GnuIlp32 | Environment::Gnux32 => Some(32),
        _ => {
            let width = triple.architecture.pointer_width().ok();
            width.map(|width| width.bits())
        }
    }
}

/// Returns the vendor that `target_lexicon` does not know, or an empty text if it knows it. It
/// takes the word behind the architecture for a vendor, so `armv7-rtems-eabihf` has the vendor
/// `rtems` and no operating system.
fn word_of(triple: &Triple) -> &str {
    match &triple.vendor {
        Vendor::Custom(word) => word.as_str(),
        _ => "",
    }
}

/// Returns whether `text` is the vendor of the triple. A vendor may be any text. The targets with
/// some words in its place have the vendor `unknown`; those of Espressif have it, or `espressif`.
fn has_vendor(triple: &Triple, text: &str) -> bool {
    let word = word_of(triple);
    let is_of_espressif = matches!(word, "esp" | "esp32" | "esp32s2" | "esp32s3");
    match text {
        "espressif" if is_of_espressif => true,
        "unknown" if is_of_espressif => true,
        "unknown" if matches!(word, "nuttx" | "oe" | "rtems" | "wali" | "wasip3") => true,
        _ => text
            .parse::<Vendor>()
            .is_ok_and(|named| named == triple.vendor),
    }
}

/// Returns whether `text` is a family of the triple.
fn has_family(triple: &Triple, text: &str) -> bool {
    match text {
        "unix" => is_unix(triple),
        "wasm" => is_wasm(triple),
        "windows" => triple.operating_system == OperatingSystem::Windows,
        _ => false,
    }
}

/// Returns whether the triple is of the family `unix`.
fn is_unix(triple: &Triple) -> bool {
    use OperatingSystem::{
        Aix, Cygwin, Darwin, Dragonfly, Emscripten, Espidf, Freebsd, Fuchsia, Haiku, Horizon, Hurd,
        IOS, Illumos, L4re, Linux, MacOSX, Netbsd, Openbsd, Redox, Solaris, TvOS, Unknown,
        VisionOS, VxWorks, WatchOS,
    };
    match triple.operating_system {
        Aix | Cygwin | Dragonfly | Espidf | Freebsd | Fuchsia | Haiku | Horizon | Hurd
        | Illumos | L4re | Netbsd | Openbsd | Redox | Solaris | VxWorks => true,
        Darwin(_) | IOS(_) | MacOSX(_) | TvOS(_) | VisionOS(_) | WatchOS(_) => true,
        Emscripten => has_architecture(triple, "wasm32"),
        // A program that runs in the kernel has no libc.
        Linux => triple.environment != Environment::Kernel || word_of(triple) == "wali",
        Unknown => matches!(word_of(triple), "nuttx" | "rtems"),
        _ => false,
    }
}

/// Returns whether the triple is of the family `wasm`.
fn is_wasm(triple: &Triple) -> bool {
    use OperatingSystem::{Emscripten, Linux, Unknown, Wasi, WasiP1, WasiP2};
    let has_width = |text| has_architecture(triple, text);
    match triple.operating_system {
        Wasi | WasiP1 | WasiP2 => true,
        Emscripten => has_width("wasm32"),
        Linux => word_of(triple) == "wali",
        Unknown => !is_unix(triple) && (has_width("wasm32") || has_width("wasm64")),
        _ => false,
    }
}

/// Returns whether `text` is the operating system of the triple. A deployment target counts for
/// each system but `macos`, so `ios14.0` is not `ios`. A triple whose environment is a kernel of
/// Hermit runs Hermit, whatever its system is called.
fn has_system(triple: &Triple, text: &str) -> bool {
    use Environment::{Android, Androideabi, HermitKernel};
    use OperatingSystem::{Darwin, Linux, WasiP1, WasiP2};
    let (own, environment) = (triple.operating_system, triple.environment);
    match (text, own) {
        ("android", Linux) => matches!(environment, Android | Androideabi),
        ("macos", _) => matches!(own, Darwin(_)),
        ("nuttx" | "rtems", _) => word_of(triple) == text,
        ("wasi", WasiP1 | WasiP2) => true,
        ("wasi", _) if word_of(triple) == "wasip3" => true,
        ("hermit", _) if environment == HermitKernel => true,
        _ => environment != HermitKernel && text.parse() == Ok(own),
    }
}

/// Which texts are the environment of a triple. Its operating system says it.
enum Environments {
    /// Exactly these
    Fixed(&'static [&'static str]),
    /// `gnu` if the environment is a kernel of Linux, and the empty text otherwise
    OfKernels,
    /// `macabi` or `sim` if the environment is one of these. Without one the text is empty, and
    /// `sim` too, since triples of simulators may not say it.
    OfPhones,
    /// What the environment of the triple says
    Own,
}

/// Returns the rule for the environment of triples with this operating system.
fn environments_of(system: OperatingSystem) -> Environments {
    use OperatingSystem::{
        Cloudabi, Freebsd, Hermit, IOS, Netbsd, None_, Redox, TvOS, VxWorks, Wasi, WasiP1, WasiP2,
    };
    match system {
        Freebsd | Netbsd => Environments::Fixed(&[""]),
        Redox => Environments::Fixed(&["relibc"]),
        VxWorks => Environments::Fixed(&["gnu"]),
        Wasi => Environments::Fixed(&["", "p1"]),
        WasiP1 => Environments::Fixed(&["p1"]),
        WasiP2 => Environments::Fixed(&["p2"]),
        Cloudabi | Hermit | None_ => Environments::OfKernels,
        IOS(_) | TvOS(_) => Environments::OfPhones,
        _ => Environments::Own,
    }
}

/// Returns whether `text` is the environment of the triple.
fn has_environment(triple: &Triple, text: &str) -> bool {
    use Environment::{LinuxKernel, Macabi, Sim, Unknown};
    let own = triple.environment;
    match environments_of(triple.operating_system) {
        Environments::Fixed(texts) => texts.contains(&text),
        Environments::OfKernels => text == if own == LinuxKernel { "gnu" } else { "" },
        Environments::OfPhones => match text {
            "" => !matches!(own, LinuxKernel | Macabi | Sim),
            "gnu" => own == LinuxKernel,
            "macabi" => own == Macabi,
            "sim" => matches!(own, Sim | Unknown),
            _ => false,
        },
        Environments::Own => says_environment(triple, text),
    }
}

/// Returns whether the environment of the triple says `text`. The name of one that also says which
/// ABI floating-point numbers have stands for its libc, as `gnueabihf` for `gnu`.
fn says_environment(triple: &Triple, text: &str) -> bool {
    use Environment::{
        Android, Androideabi, Eabi, Eabihf, Musl, Muslabi64, Musleabi, Musleabihf, None, Sim,
        Softfloat, Uclibc, Uclibceabi, Uclibceabihf, Unknown,
    };
    use OperatingSystem::{Espidf, Horizon};
    let own = triple.environment;
    match text {
        "" => matches!(
            own,
            Android | Androideabi | Eabi | Eabihf | None | Sim | Softfloat | Unknown
        ),
        "gnu" => is_gnu(triple),
        "musl" => matches!(own, Musl | Muslabi64 | Musleabi | Musleabihf),
        "newlib" => {
            let system = triple.operating_system;
            matches!(system, Espidf | Horizon) || word_of(triple) == "rtems"
        }
        "p3" => word_of(triple) == "wasip3",
        "uclibc" => matches!(own, Uclibc | Uclibceabi | Uclibceabihf),
        _ => text.parse() == Ok(own),
    }
}

/// Returns whether the environment of the triple is `gnu`.
fn is_gnu(triple: &Triple) -> bool {
    use Environment::{
        Android, Androideabi, Gnu, GnuIlp32, GnuLlvm, Gnuabi64, Gnueabi, Gnueabihf, Gnuspe, Gnux32,
        Kernel,
    };
    let own = triple.environment;
    let is_linux = triple.operating_system == OperatingSystem::Linux;
    match own {
        Gnu | GnuIlp32 | GnuLlvm | Gnuabi64 | Gnueabi | Gnueabihf | Gnuspe | Gnux32 => true,
        Android | Androideabi | Kernel if is_linux => true,
        // The triples of AVR stand for targets such as `avr-unknown-gnu-atmega328`.
        _ => triple.architecture == Architecture::Avr && own != Kernel,
    }
}
