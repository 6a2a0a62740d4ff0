//! The bar that shows how far the work has come.

use corpus::bar;

#[test]
fn the_bar_grows_from_empty_to_full() {
    assert_eq!(bar(0, 8), format!("[{}] 0 of 8", ".".repeat(40)));
    assert_eq!(bar(2, 8), format!("[{}{}] 2 of 8", "#".repeat(10), ".".repeat(30)));
    assert_eq!(bar(8, 8), format!("[{}] 8 of 8", "#".repeat(40)));
    assert_eq!(bar(0, 0), format!("[{}] 0 of 0", ".".repeat(40)));
}
