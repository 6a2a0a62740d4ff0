//! Shares of a folder.

use corpus::Part;

#[test]
fn shares_follow_each_other_and_are_the_whole() {
    for total in [0, 1, 2, 7, 14, 1000] {
        for of in [1, 2, 3, 7, 20, Part::MOST] {
            let ranges: Vec<_> =
                (1..=of.min(50)).map(|i| Part::read(&format!("{i}/{of}")).unwrap().range(total)).collect();
            let ends = ranges.iter().map(|range| range.end);
            assert_eq!(ranges[0].start, 0);
            assert!(ranges.iter().skip(1).map(|range| range.start).eq(ends.take(ranges.len() - 1)), "{ranges:?}");
            assert!(ranges.iter().all(|range| range.len() <= total.div_ceil(of)), "{ranges:?}");
            let last = Part::read(&format!("{of}/{of}")).unwrap().range(total);
            assert_eq!(last.end, total);
        }
    }
}

#[test]
fn a_share_is_written_as_one_number_of_another() {
    assert_eq!(Part::read("2/4").unwrap().to_string(), "part 2 of 4");
    assert!(Part::read("1000000/1000000").is_some());
    for wrong in ["", "1", "/", "1/", "/1", "0/4", "5/4", "1/0", "-1/4", "+1/4", "1/4/4", "a/b", " 1/4", "1/1000001"] {
        assert_eq!(Part::read(wrong), None, "{wrong}");
    }
}
