//! Targets from the lines that a compiler prints.

use cfgx::Expression;
use cfgx::targets::{
    Abi, Arch, Endian, Env, Families, Family, HasAtomic, HasAtomics, Os, Panic, RustcCfgError,
    TargetInfo, Triple, Vendor,
};
use std::error::Error;

/// Lines that name each key of a target. Each key stands once, at the line with this number.
const LINES: [&str; 12] = [
    "target_abi=\"eabihf\"",
    "target_arch=\"arm\"",
    "target_endian=\"big\"",
    "target_env=\"musl\"",
    "target_os=\"linux\"",
    "panic=\"abort\"",
    "target_pointer_width=\"32\"",
    "target_vendor=\"pc\"",
    "target_has_atomic=\"ptr\"",
    "target_has_atomic=\"8\"",
    "target_family=\"wasm\"",
    "unix",
];

/// Returns the target of those lines.
fn expected() -> TargetInfo {
    TargetInfo {
        triple: Triple::new_const("mine"),
        os: Some(Os::linux),
        abi: Some(Abi::eabihf),
        arch: Arch::arm,
        env: Some(Env::musl),
        vendor: Some(Vendor::pc),
        families: Families::new([Family::unix, Family::wasm]),
        pointer_width: 32,
        endian: Endian::big,
        has_atomics: HasAtomics::new([HasAtomic::IntegerSize(8), HasAtomic::Pointer]),
        panic: Panic::abort,
    }
}

/// Reads lines.
fn read(lines: &[&str]) -> Result<TargetInfo, RustcCfgError> {
    TargetInfo::from_rustc_cfg("mine", &lines.join("\n"))
}

/// Reads those lines with one more at this place.
fn read_with(place: usize, line: &str) -> Result<TargetInfo, RustcCfgError> {
    let mut lines = LINES.to_vec();
    lines.insert(place, line);
    read(&lines)
}

/// Reads those lines with this one in place of the one that names its key.
fn read_instead(line: &str) -> TargetInfo {
    let key = line.split('=').next().unwrap();
    let place = LINES.iter().position(|one| one.starts_with(key)).unwrap();
    let mut lines = LINES;
    lines[place] = line;
    read(&lines).unwrap()
}

#[test]
fn each_key_has_its_field() {
    assert_eq!(read(&LINES), Ok(expected()));
    let mut reversed = LINES;
    reversed.reverse();
    assert_eq!(read(&reversed), Ok(expected()));
    let spaced = LINES.map(|line| line.replace('=', " = ")).join("\r\n");
    assert_eq!(TargetInfo::from_rustc_cfg("mine", &spaced), Ok(expected()));
}

#[test]
fn a_value_may_stand_twice() {
    for line in LINES {
        assert_eq!(read_with(LINES.len(), line), Ok(expected()), "{line}");
    }
    assert_eq!(read_with(0, "target_family=\"unix\""), Ok(expected()));
    assert_eq!(
        read_with(0, "target_pointer_width=\"+032\""),
        Ok(expected())
    );
}

/// Keys with one value, and another value than that of the lines.
const OTHERS: [(&str, &str); 8] = [
    ("target_abi", "eabi"),
    ("target_arch", ""),
    ("target_endian", "little"),
    ("target_env", ""),
    ("target_os", "none"),
    ("panic", "unwind"),
    ("target_pointer_width", "0"),
    ("target_vendor", " pc"),
];

#[test]
fn another_value_of_a_key() {
    for (key, value) in OTHERS {
        let other = format!("{key}=\"{value}\"");
        let line = LINES.len() + 1;
        let error = read_with(LINES.len(), &other).unwrap_err();
        assert_eq!(error, RustcCfgError::Twice { line, key });
        assert_eq!(error.to_string(), format!("line 13: another {key}"));
        assert!(error.source().is_none());
        let place = LINES.iter().position(|line| line.starts_with(key)).unwrap();
        let line = place + 2;
        let error = read_with(0, &other).unwrap_err();
        assert_eq!(error, RustcCfgError::Twice { line, key });
    }
}

/// Keys that each target has.
const NEEDED: [&str; 4] = [
    "target_arch",
    "target_endian",
    "panic",
    "target_pointer_width",
];

#[test]
fn each_line_is_needed_or_not() {
    for place in 0..LINES.len() {
        let mut lines = LINES.to_vec();
        let line = lines.remove(place);
        let key = NEEDED.into_iter().find(|key| line.starts_with(key));
        match (read(&lines), key) {
            (Err(error), Some(key)) => {
                assert_eq!(error, RustcCfgError::Missing { key });
                assert_eq!(error.to_string(), format!("no line has a {key}"));
                assert!(error.source().is_none());
            }
            (Ok(target), None) => assert_ne!(target, expected(), "{line}"),
            (result, _) => panic!("{line}: {result:?}"),
        }
    }
}

#[test]
fn fields_that_are_missing() {
    let mut target = expected();
    target.os = None;
    assert_eq!(read_instead("target_os=\"none\""), target);
    target.os = Some(Os::new_const(""));
    assert_eq!(read_instead("target_os=\"\""), target);
    let mut target = expected();
    target.abi = None;
    assert_eq!(read_instead("target_abi=\"\""), target);
    let mut target = expected();
    target.env = None;
    assert_eq!(read_instead("target_env=\"\""), target);
    let mut target = expected();
    target.vendor = Some(Vendor::unknown);
    assert_eq!(read_instead("target_vendor=\"unknown\""), target);
    target.vendor = Some(Vendor::new_const(""));
    assert_eq!(read_instead("target_vendor=\"\""), target);
}

/// Returns each of the texts with each place at which it is read: before all lines, among them, and
/// behind them.
fn at_each_place<'a>(texts: &'a [&'a str]) -> impl Iterator<Item = (&'a str, usize)> {
    let places = [0, 5, LINES.len()];
    texts
        .iter()
        .flat_map(move |text| places.map(|place| (*text, place)))
}

/// Lines that say nothing of a target.
const PASSED_OVER: [&str; 17] = [
    "",
    "debug_assertions",
    "test",
    "loom",
    "key=\"x\"",
    "feature=\"\"",
    "target_feature=\"sse\"",
    "all()",
    "feature",
    "panic",
    " panic ",
    "cfg(panic)",
    "target_os",
    "target_thread_local",
    "target_has_atomic",
    "target_has_atomic_load_store=\"8\"",
    "target_=\"\"",
];

#[test]
fn lines_that_are_passed_over() {
    for (line, place) in at_each_place(&PASSED_OVER) {
        assert_eq!(read_with(place, line), Ok(expected()), "{line:?}");
    }
}

/// Lines that are no conditions, and that a condition could ask.
const FAULTY: [&str; 18] = [
    " ",
    "\t",
    "cfg()",
    "all(",
    "unix windows",
    "target_os = \"linux\", unix",
    "?",
    "?unix",
    "?panic",
    "?target_thread_local",
    "unix=\"x\"",
    "target_os=",
    "target_os=linux",
    "target_feature=\"\"",
    "target_thread_local,",
    "target_pointer_width=\"256\"",
    "target_endian=\"middle\"",
    "target_has_atomic=\"\"",
];

#[test]
fn lines_that_are_faulty() {
    for (text, place) in at_each_place(&FAULTY) {
        let error = Expression::parse(text).unwrap_err();
        let line = place + 1;
        let printed = format!("line {line}:\n{error}");
        let source = error.to_string();
        let found = read_with(place, text).unwrap_err();
        assert_eq!(found.to_string(), printed);
        assert_eq!(found.source().unwrap().to_string(), source);
        assert_eq!(found, RustcCfgError::Faulty { line, error });
    }
}

#[test]
fn lines_behind_others_that_are_passed_over() {
    let passed_over = PASSED_OVER.join("\n");
    let lines = LINES.join("\n");
    for text in FAULTY {
        let error = Expression::parse(text).unwrap_err();
        let line = PASSED_OVER.len() + 1;
        let expected = RustcCfgError::Faulty { line, error };
        for behind in FAULTY {
            let read = format!("{passed_over}\n{text}\n{behind}\n{lines}");
            let found = TargetInfo::from_rustc_cfg("mine", &read);
            assert_eq!(found.as_ref(), Err(&expected), "{behind:?}");
        }
    }
    let (key, line) = ("target_arch", 2);
    let read = "target_arch=\"arm\"\ntarget_arch=\"x86\"\nall(\n";
    let twice = TargetInfo::from_rustc_cfg("mine", read);
    assert_eq!(twice, Err(RustcCfgError::Twice { line, key }));
}

/// Lines of a target without an operating system, with lines that no condition can ask.
const BARE: &str = "panic=\"abort\"\ntarget_abi=\"\"\ntarget_arch=\"arm\"\ntarget_endian=\"big\"\n\
    target_env=\"\"\ntarget_has_atomic\ntarget_has_atomic=\"32\"\ntarget_has_atomic=\"8\"\n\
    target_has_atomic_load_store=\"8\"\ntarget_os=\"none\"\r\n\ntarget_pointer_width=\"32\"\n\
    target_vendor=\"unknown\"\n";

#[test]
fn lines_of_a_bare_target() {
    let target = TargetInfo::from_rustc_cfg("arm-none", BARE).unwrap();
    assert_eq!(
        (target.os.as_ref(), target.abi.as_ref(), target.env.as_ref()),
        (None, None, None)
    );
    assert_eq!(target.vendor, Some(Vendor::unknown));
    assert_eq!((target.endian, target.pointer_width), (Endian::big, 32));
    assert!(target.families.is_empty());
    let widths = [HasAtomic::IntegerSize(8), HasAtomic::IntegerSize(32)];
    assert_eq!(*target.has_atomics, widths);
}

#[test]
fn lines_that_are_of_no_target() {
    let error = |lines: &str| TargetInfo::from_rustc_cfg("mine", lines).unwrap_err();
    let twice = error(&format!("{BARE}target_arch=\"x86\"\n"));
    let key = "target_arch";
    assert_eq!(twice, RustcCfgError::Twice { line: 14, key });
    assert_eq!(error("unix"), RustcCfgError::Missing { key });
    for faulty in [
        "unix windows",
        "?unix",
        "all(",
        "target_os = \"linux\", unix",
    ] {
        let lines = format!("unix\n{faulty}\n");
        assert!(
            matches!(error(&lines), RustcCfgError::Faulty { line: 2, .. }),
            "{faulty}"
        );
    }
}
