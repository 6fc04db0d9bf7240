//! The declarations of `src/raw.rs` are those of `guttertide.h`.

use guttertide::raw::{
    GUTTERTIDE_PART, GUTTERTIDE_VERSION, guttertide_answer, guttertide_handle, guttertide_pair, guttertide_part,
    guttertide_value,
};
use guttertide::{Full, Later, OpenError, Structure, Unfit};
use std::mem::{offset_of, size_of};

const HEADER: &str = include_str!("../../guttertide.h");
const RAW: &str = include_str!("../src/raw.rs");

/// A declaration of the header, as Rust writes it: `uint32_t guttertide_c_close(guttertide_handle *caller);`.
fn in_rust(declared: &str) -> Option<String> {
    let declared = declared.rsplit("*/ ").next()?;
    let (name, parameters) = declared.strip_prefix("uint32_t guttertide_c_")?.strip_suffix(")")?.split_once('(')?;
    let parameters = parameters.split(',').filter(|&parameter| parameter != "void").map(|parameter| {
        let (kind, name) = parameter.trim().rsplit_once(' ').expect("a parameter has a type and a name");
        match (kind, name.strip_prefix('*')) {
            (kind, Some(name)) => format!("{name}: *mut {kind}"),
            ("uint32_t", None) => format!("{name}: u32"),
            ("uint64_t", None) => format!("{name}: u64"),
            ("size_t", None) => format!("{name}: usize"),
            _ => panic!("the type {kind}"),
        }
    });
    Some(format!("pub fn guttertide_c_{name}({}) -> u32", parameters.collect::<Vec<_>>().join(", ")))
}

/// The text with each run of white space as one space, and lists on one line.
fn on_one_line(text: &str) -> String {
    text.split_whitespace().collect::<Vec<_>>().join(" ").replace("( ", "(").replace(", )", ")")
}

#[test]
fn functions() {
    let raw = on_one_line(RAW);
    let wanted: Vec<String> = HEADER.split(';').filter_map(|declared| in_rust(&on_one_line(declared))).collect();
    assert_eq!(wanted.len(), 9);
    assert_eq!(raw.matches("pub fn ").count(), 9);
    for declaration in wanted {
        assert!(raw.contains(&declaration), "{declaration}");
    }
}

/// Each name that the header gives a program begins as those of the library.
#[test]
fn names() {
    let defined = |line: &'static str| {
        let function =
            line.strip_prefix("static inline ").and_then(|rest| rest.split('(').next()?.rsplit([' ', '*']).next());
        let kind = || line.strip_prefix("} ").and_then(|rest| rest.strip_suffix(';'));
        let word = || line.strip_prefix("#define ").and_then(|rest| rest.split(' ').next());
        function.or_else(kind).or_else(word)
    };
    let names: Vec<&str> = HEADER.lines().filter_map(defined).collect();
    assert!(names.len() > 35, "{names:?}");
    assert!(names.iter().all(|name| name.to_lowercase().starts_with("guttertide_")), "{names:?}");
}

#[test]
fn codes() {
    let codes: Vec<&str> = HEADER.lines().filter_map(|line| line.trim().strip_prefix("GUTTERTIDE_")).collect();
    let codes: Vec<(&str, &str)> = codes.iter().filter_map(|line| line.split_once(" = ")).collect();
    assert_eq!(codes.len(), 23);
    assert_eq!(RAW.matches(": u32 = ").count(), 24, "the codes, and the version");
    for (name, rest) in codes {
        let code = rest.split([',', ' ']).next().expect("a code has a number");
        assert!(RAW.contains(&format!("pub const GUTTERTIDE_{name}: u32 = {code};")), "GUTTERTIDE_{name} = {code}");
    }
}

#[test]
fn version() {
    let numbers: Vec<u32> =
        env!("CARGO_PKG_VERSION").split('.').map(|number| number.parse().expect("a number")).collect();
    assert_eq!(GUTTERTIDE_VERSION, numbers.iter().fold(0, |all, number| all << 8 | number));
    assert!(HEADER.contains(&format!("#define GUTTERTIDE_VERSION {GUTTERTIDE_VERSION:#08x}u\n")));
}

/// The words of a code: `guttertide_text`.
fn text(code: &str) -> &'static str {
    let case = format!("    case GUTTERTIDE_{code}: return \"");
    HEADER.lines().find_map(|line| line.strip_prefix(&*case)?.strip_suffix("\";")).expect("a code has words")
}

#[test]
fn words_of_errors() {
    assert_eq!(Full.to_string(), text("FULL"));
    assert_eq!(Later::Busy { node: 1, holder: 2 }.to_string(), text("BUSY"));
    assert_eq!(Later::Moved { node: 1 }.to_string(), text("MOVED"));
    assert_eq!(Later::Far.to_string(), text("FAR"));
    assert_eq!(Unfit.to_string(), text("UNFIT"));
    assert_eq!(OpenError::OutOfMemory.to_string(), text("NO_MEMORY"));
    assert_eq!(OpenError::Unfit(Structure::BTree).to_string(), text("UNFIT"));
    assert_eq!(OpenError::Version(0).to_string(), text("OTHER_VERSION"));
}

#[test]
fn types() {
    type Handle = guttertide_handle;
    type Value = guttertide_value;
    type Answer = guttertide_answer;
    type Pair = guttertide_pair;
    type Part = guttertide_part;
    assert_eq!(size_of::<Handle>(), size_of::<*mut u8>());
    assert_eq!((size_of::<Value>(), offset_of!(Value, low), offset_of!(Value, high)), (16, 0, 8));
    assert_eq!((size_of::<Answer>(), offset_of!(Answer, number), offset_of!(Answer, value)), (32, 0, 8));
    assert_eq!((offset_of!(Answer, node), offset_of!(Answer, holder)), (24, 28));
    assert_eq!((size_of::<Pair>(), offset_of!(Pair, key), offset_of!(Pair, value)), (24, 0, 8));
    assert_eq!((offset_of!(Part, answer), offset_of!(Part, next), offset_of!(Part, count)), (0, 32, 40));
    assert_eq!(size_of::<Part>(), 40 + size_of::<usize>());
    assert!(HEADER.contains(&format!("#define GUTTERTIDE_PART {GUTTERTIDE_PART}\n")));
}
