//! Names as they are shown.

use corpus::shown;
use std::collections::BTreeSet;
use std::ffi::OsStr;
use std::os::unix::ffi::OsStrExt;

fn of(name: &[u8]) -> String {
    shown(OsStr::from_bytes(name))
}

#[test]
fn what_breaks_or_turns_a_line_and_what_is_no_utf_8_is_written_out() {
    assert_eq!(of(b"plain name-1.block"), "plain name-1.block");
    assert_eq!(of("Größe λ".as_bytes()), "Größe λ");
    assert_eq!(of(b"two\nlines\ttab"), "two\\u{a}lines\\u{9}tab");
    assert_eq!(of("a\u{202e}b\u{2028}c".as_bytes()), "a\\u{202e}b\\u{2028}c");
    assert_eq!(of(b"caf\xe9"), "caf\\xe9");
    assert_eq!(of(b"\xff\xfe.block"), "\\xff\\xfe.block");
    assert_eq!(of(b"back\\slash"), "back\\\\slash");
}

#[test]
fn two_names_are_never_shown_alike() {
    let names: [&[u8]; 10] = [
        b"a\xe9",
        b"a\xe8",
        b"a\\xe9",
        b"a\\\xe9",
        "a\u{fffd}".as_bytes(),
        b"a\n",
        b"a\\u{a}",
        b"a\\n",
        b"a\\",
        b"a\\\\",
    ];
    let shown: BTreeSet<String> = names.iter().map(|name| of(name)).collect();
    assert_eq!(shown.len(), names.len(), "{shown:?}");
    assert!(shown.iter().all(|name| name.lines().count() == 1));
}
