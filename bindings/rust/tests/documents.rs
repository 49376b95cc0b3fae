//! The names of `Number` are those of the enum in include/thymewax.h, with the same values.

use thymewax::Number;

/// A file by its path from this crate's folder.
fn page(path: &str) -> String {
    let here = env!("CARGO_MANIFEST_DIR");
    std::fs::read_to_string(format!("{here}/{path}")).expect(path)
}

/// Each number of the header: name without the prefix, and value.
fn declared() -> Vec<(String, u32)> {
    let header = page("../../include/thymewax.h");
    let (_, rest) = header
        .split_once("enum thymewax_number {\n")
        .expect("the enum");
    let (body, _) = rest.split_once("};").expect("its end");
    let row = |line: &str| {
        let (name, rest) = line.trim().strip_prefix("THYMEWAX_")?.split_once(" = ")?;
        let value = rest.split([',', ' ']).next()?.parse().ok()?;
        Some((name.to_string(), value))
    };
    body.lines()
        .map(|line| row(line).unwrap_or_else(|| panic!("no number: {line}")))
        .collect()
}

/// The constants of `Number` by the source, since nothing else can list them all.
fn constants() -> Vec<String> {
    let source = page("src/number.rs");
    let names = source.lines().filter_map(|line| {
        let (name, _) = line.trim().strip_prefix("pub const ")?.split_once(':')?;
        (!name.starts_with("fn ")).then(|| name.to_string())
    });
    names.collect()
}

macro_rules! numbers {
    ($($name:ident)*) => {
        [$((stringify!($name).to_string(), Number::$name.get())),*]
    };
}

#[test]
fn numbers_have_the_names_of_the_header() {
    let named = numbers![
        DONE DROPPED_FULL DROPPED_READ_ONLY EMPTY NO_REGISTER HELD_IN_RESET TRANSFER_OPEN
        NO_TRANSFER NOT_IN_THIS_MODE NO_COMMAND NOT_THIS_KIND LENGTH_REACHED SDO_EMPTY NO_ROOM
        ENDING_NOT_ALLOWED SDO_NOT_EMPTY NOT_HEARD NOT_ACKNOWLEDGED OUT_OF_RANGE WRONG_PARITY
        NOT_ATTACHED NOT_WELL_FORMED STORE_LENGTH SET_UP_OUT_OF_RANGE WRONG_MARK WRONG_TABLE
        NO_SUCH_SECTION WRONG_RECORD BURST_HAS_NO_COMMANDS NOT_CARRIED
        WATERMARK_ABOVE_CAPACITY
    ];
    assert_eq!(declared(), named);
    let names: Vec<String> = named.into_iter().map(|(name, _)| name).collect();
    assert_eq!(constants(), names);
}
