//! The notation to blocks and back: P1 to P9, weights of two bytes, and texts that are no matrix.

use matrix::{Matrix, parse};

/// P1 to P9: the text, the columns where they are given, the block in hexadecimal.
const EXAMPLES: [(&str, Option<usize>, &str); 9] = [
    (
        "0:5 . / 1:3 0:2 / 1:6 1:1 / . 0:2",
        None,
        "01000000200002000400040000000500060000010300020006000001060101000400010002",
    ),
    (
        "0:4 . 1:3 / 0:5 0:5 0:5 / 1:5 1:5 1:5",
        None,
        "010000002200030003000800000004020001030008000000050005000500080000010501050105",
    ),
    ("", Some(1), "010000000400010000"),
    ("0:7", None, "010000000a00010001000400000007"),
    ("0:5 / 1:5", None, "010000001000010002000400000005000400000105"),
    ("0:3 / 0:3", None, "010000001000010002000400000003000400000003"),
    ("0:0 / 1:0", None, "010000001000010002000400000000000400000100"),
    ("1:4 .", None, "010000000a00020001000400000104"),
    (". / 0:7", None, "010000000e0001000200020000000400000007"),
];

fn bytes(hexadecimal: &str) -> Vec<u8> {
    let digits: Vec<u32> = hexadecimal.chars().map(|digit| digit.to_digit(16).unwrap()).collect();
    digits.chunks(2).map(|pair| (16 * pair[0] + pair[1]) as u8).collect()
}

#[test]
fn p1_to_p9_are_the_blocks_of_their_matrices() {
    for (text, columns, block) in EXAMPLES {
        assert_eq!(parse(text, columns).unwrap().block(), bytes(block), "{text}");
    }
}

#[test]
fn p1_to_p9_come_back_from_block_and_text() {
    for (text, columns, block) in EXAMPLES {
        let matrix = Matrix::read(&bytes(block)).unwrap();
        assert_eq!(matrix, parse(text, columns).unwrap());
        assert_eq!(matrix.to_string().split_whitespace().collect::<Vec<_>>().join(" "), text);
        assert_eq!(parse(&matrix.to_string(), columns), Ok(matrix));
    }
}

/// Matrices in version 2: the text, the block in hexadecimal.
const WIDE: [(&str, &str); 3] = [
    (
        "0:5 . / 1:3 0:2 / 1:6 1:1 / . 0:2",
        "02000000260002000400050000000005000800000100030000020008000001000601000100050001000002",
    ),
    ("0:256 . 1:65535", "020000001100030001000b000000010002000001ffff"),
    ("0:0 1:255 0:257", "020000001100030001000b00000000000100ff000101"),
];

#[test]
fn weights_of_two_bytes_are_written_and_come_back() {
    for (text, block) in WIDE {
        let (block, matrix) = (bytes(block), parse(text, None).unwrap().in_version(2).unwrap());
        assert_eq!(matrix.block(), block, "{text}");
        let read = Matrix::read(&block).unwrap();
        assert_eq!(read, matrix, "{text}");
        assert_eq!(read.to_string().split_whitespace().collect::<Vec<_>>().join(" "), text);
    }
}

#[test]
fn the_version_is_the_least_that_holds_the_weights() {
    assert_eq!(parse("0:255 / 1:0", None).unwrap().version, 1);
    assert_eq!(parse("0:255 / . 1:256", None).unwrap().version, 2);
    assert_eq!(parse("0:65535", None).unwrap().version, 2);
    let fault = parse("0:255 / . 0:1 1:256", None).unwrap().in_version(1).unwrap_err();
    assert_eq!(fault.to_string(), "row 2, entry 3: weight 256 is above 255, which takes version 2");
    let narrow = parse("0:255", None).unwrap();
    assert_eq!(narrow.clone().in_version(2).unwrap().in_version(1), Ok(narrow));
}

#[test]
fn version_2_has_no_reads_without_cells() {
    let words = "row 2 has no entry: version 2, which weights above 255 take, has no reads without cells";
    assert_eq!(parse("0:256 / . / .", None).unwrap_err().to_string(), words);
    let narrow = parse("0:255 / . / .", None).unwrap();
    assert_eq!(narrow.clone().in_version(2).unwrap_err().to_string(), words);
    assert_eq!(narrow.clone().in_version(1), Ok(narrow.clone()));
    let block = Matrix { version: 2, ..narrow }.block();
    assert_eq!(block, bytes("020000001300010003000500000000ff0002000000020000"));
    assert_eq!(Matrix::read(&block), Err((38, 1)));
}

#[test]
fn columns_after_the_longest_row_are_given() {
    assert_eq!(parse("1:4", Some(2)), parse("1:4 .", None));
    assert_eq!(parse("1:4", Some(1)), parse("1:4", None));
}

#[test]
fn a_newline_between_rows_is_as_a_slash() {
    let slashes = parse("0:5 . / 1:3 0:2 / . 0:2", None);
    for text in [
        "0:5 .\n1:3 0:2\n. 0:2",
        "0:5 .\n1:3 0:2\n. 0:2\n",
        "0:5 . /\n1:3 0:2 /\n. 0:2\n",
        "0:5 .\n/ 1:3 0:2\n/ . 0:2",
        "\n\n0:5 .\n \n1:3 0:2 / . 0:2\n\n",
        "0:5 .\r\n1:3 0:2\r\n. 0:2\r\n",
    ] {
        assert_eq!(parse(text, None), slashes, "{text:?}");
    }
    assert_ne!(parse("0:5\n. / 1:3 0:2 / . 0:2", None), slashes, "a row does not go on in the next line");
}

#[test]
fn active_reads_and_gaps_are_counted() {
    let counts = |text: &str| parse(text, None).map(|matrix| (matrix.most_active(), matrix.with_gaps())).unwrap();
    assert_eq!(counts("0:4 . 1:3 / . 0:5 . / . . 1:5"), (2, 1));
    assert_eq!(counts("0:4 1:3 . / . . 0:1 / . ."), (1, 0));
    assert_eq!(counts(". . ."), (0, 0));
    assert_eq!(counts(&vec!["0:1 . . 1:0"; 13].join("\n")), (13, 13));
}

#[test]
fn dots_are_holes_only_between_entries() {
    let matrix = parse(". . 0:1 . 1:2 . / . 0:0", None).unwrap();
    assert_eq!(matrix.rows[0].first, 2);
    assert_eq!(matrix.rows[0].cells, [Some((0, 1)), None, Some((1, 2))]);
    assert_eq!(matrix.rows[1].cells, [Some((0, 0))]);
}

#[test]
fn a_text_that_is_no_matrix_is_refused_with_its_place() {
    let rows = vec!["0:1"; 1025].join("/");
    let long = vec!["."; 1025].join(" ");
    let faults = [
        ("0:5 / 1:3 x", "row 2, entry 2: 'x' is neither"),
        ("2:5", "row 1, entry 1: '2:5' is neither"),
        ("0:65536", "row 1, entry 1: '0:65536' is neither"),
        ("0:", "row 1, entry 1: '0:' is neither"),
        ("0:+5", "row 1, entry 1: '0:+5' is neither"),
        ("0:05", "row 1, entry 1: '0:05' is neither"),
        ("0:5 / / 0:5", "row 2 is empty"),
        ("0:5 /", "row 2 is empty"),
        ("0:5 /\n/\n0:5", "row 2 is empty"),
        ("/ 0:5", "row 1 is empty"),
        ("0:5\n0:5\n1:3 x", "row 3, entry 2: 'x' is neither"),
        (" \n", "no row says how many columns"),
        (&rows, "1025 rows"),
        (&long, "1025 columns"),
    ];
    for (text, message) in faults {
        let fault = parse(text, None).unwrap_err().to_string();
        assert!(fault.starts_with(message), "'{fault}' does not start with '{message}'");
    }
    assert_eq!(parse("0:1 / 0:1 .", Some(1)).unwrap_err().to_string(), "row 2 has 2 entries, columns given: 1");
    assert_eq!(parse("", Some(0)).unwrap_err().to_string(), "0 columns: a block has 1 to 1024");
}
