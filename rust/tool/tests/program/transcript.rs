//! The transcript of `docs/CORPUS.md`, run again.

use crate::common::{folder, run};
use crate::words;
use std::fs;
use std::path::Path;

/// Whether a page has these lines, set in, one behind the other.
fn has(page: &str, lines: &str) -> bool {
    page.contains(&lines.lines().map(|line| format!("    {line}").trim_end().to_string() + "\n").collect::<String>())
}

#[test]
fn the_page_on_corpora_shows_what_comes_out() {
    let page = Path::new(env!("CARGO_MANIFEST_DIR")).join("../../docs/CORPUS.md");
    let page = fs::read_to_string(page).unwrap().replace("\n\n    50 malformed", "\n    50 malformed");
    let room = folder("transcript");
    let suite = room.join("suite");
    let more = ["--seed", "2026", "--count", "1000", "--kind", "pairs", "--answers", "forgetful"];
    assert!(page.contains(&format!("    $ velejume draw suite {}\n", more.join(" "))));
    let (table, _, _) = run(&[words!["draw", &suite].to_vec(), more.map(Into::into).to_vec()].concat());
    assert!(has(&page, &table), "{table}");
    let manifest = fs::read_to_string(suite.join("manifest.tsv")).unwrap();
    assert!(has(&page, &manifest.lines().skip(1).take(4).collect::<Vec<_>>().join("\n")));
    let (said, _, status) =
        run(&words!["judge", &suite, "--tsv", room.join("suite.tsv"), "--report", room.join("suite.html")]);
    assert_eq!(status, 1);
    let (lines, table) = said.split_once("\n\n").unwrap();
    let first: Vec<&str> = lines.lines().take(3).collect();
    let more = format!("[{} lines more]", lines.lines().count() - 3);
    assert!(has(&page, &format!("{}\n{more}\n{table}", first.join("\n"))), "{said}");
    let (text, _, _) = run(&words!["matrix", "--text", suite.join("000462-pairs.block")]);
    assert!(has(&page, &text), "{text}");
    let index = fs::read_to_string(room.join("suite.html")).unwrap();
    let sums: Vec<&str> = index.lines().skip_while(|line| !line.contains("SHA-256")).take(2).collect();
    assert!(has(&page, &sums.join("\n")), "{sums:?}");
    assert!(room.join("suite-5.html").exists() && !room.join("suite-6.html").exists());
}

#[test]
fn the_page_on_corpora_shows_what_is_converted() {
    let page = Path::new(env!("CARGO_MANIFEST_DIR")).join("../../docs/CORPUS.md");
    let page = fs::read_to_string(page).unwrap();
    let room = folder("transcript-converted");
    let [old, new] = ["old", "new"].map(|name| room.join(name));
    let more = ["--seed", "2026", "--count", "80", "--kind", "pairs,empty"];
    let (table, _, _) = run(&[words!["draw", &old].to_vec(), more.map(Into::into).to_vec()].concat());
    let (sum, _, _) = run(&words!["convert", &old, "--to", &new]);
    let drawn = format!("$ velejume draw old {}\n{table}", more.join(" "));
    assert!(has(&page, &format!("{drawn}$ velejume convert old --to new\n{sum}")), "{drawn}{sum}");
}
