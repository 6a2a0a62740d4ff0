//! Moments as people write them.

use corpus::utc;

#[test]
fn a_moment_is_a_day_an_hour_and_a_minute() {
    let moments = [
        (0, "1970-01-01 00:00 UTC"),
        (59, "1970-01-01 00:00 UTC"),
        (86_399, "1970-01-01 23:59 UTC"),
        (951_782_400, "2000-02-29 00:00 UTC"),
        (951_868_800, "2000-03-01 00:00 UTC"),
        (1_000_000_000, "2001-09-09 01:46 UTC"),
        (1_709_164_800, "2024-02-29 00:00 UTC"),
        (1_735_689_599, "2024-12-31 23:59 UTC"),
        (1_735_689_600, "2025-01-01 00:00 UTC"),
        (4_107_542_399, "2100-02-28 23:59 UTC"),
        (4_107_542_400, "2100-03-01 00:00 UTC"),
    ];
    for (seconds, written) in moments {
        assert_eq!(utc(seconds), written);
    }
}
