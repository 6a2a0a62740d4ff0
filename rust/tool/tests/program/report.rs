//! The page for a builder: what it shows, what it leaves out, and that it needs nothing but itself.

use crate::common::{P2, P2_OURS, answer, block, folder, names, put, run};
use crate::words;
use std::fs;
use std::path::{Path, PathBuf};

/// The page for a folder, written by the program.
fn page(folder: &Path) -> String {
    let file = folder.join("page.html");
    let (_, error, status) = run(&words!["judge", "--report", &file, folder]);
    assert!(error.is_empty() && status < 2, "{error}");
    fs::read_to_string(file).unwrap()
}

/// The page for one answer to one matrix.
fn page_of(name: &str, matrix: &str, words: &str) -> String {
    let folder = folder(&format!("page-of-{name}"));
    put(&folder, name, matrix, words);
    page(&folder)
}

/// The two figures of a page with one sheet: the builder's and ours.
fn figures(page: &str) -> [&str; 2] {
    let parts: Vec<&str> = page.split("<figure>").collect();
    assert_eq!(parts.len(), 3, "two figures");
    [parts[1], parts[2]]
}

fn holds(text: &str, parts: &[&str]) {
    for part in parts {
        assert!(text.contains(part), "no {part} in {text}");
    }
}

#[test]
fn a_forgotten_pair_is_drawn_with_its_gap_and_what_disagrees() {
    let page = page_of("pair", P2, "0, 0, 001, 000, 111");
    holds(&page, &["<b>54</b> stated cost not the weight of disagreeing entries", "3 reads, 3 columns."]);
    let pair = "<tr><th>read 0<td class=\"l0\">0<small>:4</small><td class=\"hole\"><td class=\"l1 wrong\">1<small>:3</small><i>≠</i>\n";
    let haplotypes = [
        "<th>haplotype 1<td class=\"l0\">0<td class=\"l0\">0<td class=\"l0\">0\n",
        "<th>haplotype 2<td class=\"l1\">1<td class=\"l1\">1<td class=\"l1\">1\n",
    ];
    for figure in figures(&page) {
        holds(figure, &haplotypes);
        holds(figure, &[pair, "1 entry disagrees, weight 3."]);
        assert_eq!(figure.matches("wrong").count(), 1);
        assert!(figure.find("read 1").unwrap() < figure.find("side 1").unwrap(), "read 1 is on side 0");
        assert!(figure.find("side 1").unwrap() < figure.find("read 2").unwrap(), "read 2 is on side 1");
    }
    holds(figures(&page)[0], &["The answer: stated cost 0, stated flips 0 (not judged)"]);
    holds(figures(&page)[1], &["Ours: least cost 3, flips 1"]);
}

#[test]
fn reads_on_other_sides_and_other_letters_are_marked_in_both() {
    let page = page_of("moved", P2, "4, 1, 101, 000, 111");
    holds(&page, &["<b>55</b> not least: the least cost is 3"]);
    holds(&page, &["Reads on another side than in ours: 1. Letters other than ours: 0."]);
    let [builder, ours] = figures(&page);
    holds(
        builder,
        &["<b>read 0 ⇄</b><td class=\"l0 wrong\">0<small>:4</small><i>≠</i>", "1 entry disagrees, weight 4."],
    );
    holds(ours, &["<b>read 0 ⇄</b><td class=\"l0\">0<small>:4</small>", "1 entry disagrees, weight 3."]);
    assert_eq!(page.matches("⇄</b><td class=\"l").count(), 2);
    let page = page_of("tie", "0:5 . / 1:3 0:2 / 1:6 1:1 / . 0:2", "1, 1, 1000, 10, 01");
    holds(&page, &["<b>56</b> least but other sides or letters than ours"]);
    let [builder, ours] = figures(&page);
    holds(builder, &["<th>haplotype 2<td class=\"l0\">0<td class=\"l1 other\">1\n"]);
    holds(ours, &["<th>haplotype 2<td class=\"l0\">0<td class=\"tie other\">-\n"]);
}

#[test]
fn no_entry_is_marked_at_a_dash_and_a_false_dash_is() {
    let page = page_of("dash", "0:5 / 1:5", "5, 1, 00, -, -");
    let [builder, _] = figures(&page);
    holds(builder, &["<td class=\"tie other\">-", "No entry disagrees. At - either letter costs 5 in all."]);
    assert!(!builder.contains("wrong"));
    let page = page_of("false-dash", P2, "3, 1, 001, 00-, 111");
    let [builder, ours] = figures(&page);
    holds(&page, &["<b>53</b> a - where that side&#39;s sums differ"]);
    holds(builder, &["<td class=\"tie other wrong\">-<i>≠</i>\n", "<td class=\"l1\">1<small>:3</small>"]);
    holds(ours, &["<td class=\"l1 wrong\">1<small>:3</small><i>≠</i>"]);
}

#[test]
fn margins_of_our_letters_are_drawn_and_weak_ones_are_marked() {
    // an entry weighs 37 / 8
    let page = page_of("margins", P2, "4, 1, 101, 000, 111");
    let [builder, ours] = figures(&page);
    assert!(!builder.contains("<tr class=\"margin\">"), "a builder states none");
    let first = "<tr class=\"margin\"><th>margin<td>9<td>5<td class=\"weak\">2<i>?</i>\n";
    let second = "<tr class=\"margin\"><th>margin<td>5<td>5<td>5\n";
    holds(
        ours,
        &[&format!("<td class=\"l0\">0\n{first}<tr><th><b>read 0 ⇄"), &format!("<td class=\"l1\">1\n{second}<tr>")],
    );
    holds(&page, &["<td class=\"weak\">2<i>?</i><td class=\"text\">a weak one: "]);
    // an entry weighs 5; where there is no letter nothing is weak
    let page = page_of("margins-average", "0:4 0:1 . / 1:6 1:9 .", "0, 0, 10, 11-, 00-");
    let [_, ours] = figures(&page);
    holds(
        ours,
        &["<th>margin<td class=\"weak\">4<i>?</i><td class=\"weak\">1<i>?</i><td>0\n", "<th>margin<td>6<td>9<td>0\n"],
    );
    let page = page_of("margins-equal", "0:5 . / 1:5 .", "0, 0, 10, 1-, 0-");
    assert_eq!(figures(&page)[1].matches("<th>margin<td>5<td>0\n").count(), 2);
}

#[test]
fn the_largest_margin_is_drawn_whole() {
    let page = page_of("margins-largest", &["1:65535"; 12].join(" / "), &format!("65535, 1, {}, 0, 1", "1".repeat(12)));
    holds(figures(&page)[1], &["<th>margin<td>786420\n", "<th>margin<td>0\n"]);
}

#[test]
fn absent_cells_are_blank_and_reads_without_cells_are_named() {
    let page = page_of("blank", ". / . 0:7 . / 1:1 . 1:1", "0, 0, 101, 000, 111");
    let [builder, ours] = figures(&page);
    holds(builder, &["<tr><th>read 1<td><td class=\"l0\">0<small>:7</small><td>\n"]);
    holds(builder, &["<tr><th><b>read 2 ⇄</b><td class=\"l1\">1<small>:1</small><td class=\"hole\"><td class=\"l1\">"]);
    assert!(builder.find("side 1").unwrap() < builder.find("without cells: <b>read 0 ⇄</b>").unwrap());
    assert!(ours.find("without cells: <b>read 0 ⇄</b>").unwrap() < ours.find("side 1").unwrap());
}

#[test]
fn an_answer_that_cannot_be_drawn_gets_its_fields_and_ours_is_drawn() {
    let cases = [
        (
            "version",
            "3, 1, 001, 000, 111, version 1",
            "<b>50</b> malformed",
            "<tr><th>version<td class=\"wrong\">1<td>2\n",
        ),
        ("counts", "0, 0, 0001, 000, 111", "<b>51</b> other n or m", "<tr><th>reads n<td class=\"wrong\">4<td>3\n"),
        (
            "marks",
            "3, 1, 002, 000, 191",
            "<b>52</b> a side above 1 or a letter above 2",
            "2 unknown marks: side 2 of read 2, letter 9 of haplotype 2 at column 1.",
        ),
    ];
    for (name, words, verdict, said) in cases {
        let page = page_of(name, P2, words);
        let [fields, ours] = figures(&page);
        holds(&page, &[verdict]);
        holds(fields, &[said]);
        assert!(!fields.contains("haplotype 1<td"), "the builder's haplotypes are not drawn");
        holds(
            ours,
            &["Ours: least cost 3, flips 1", "<tr><th>read 0<td class=\"l0\">0<small>:4</small><td class=\"hole\">"],
        );
    }
    let folder = folder("page-of-bytes");
    fs::write(folder.join("bytes.block"), block(P2)).unwrap();
    fs::write(folder.join("bytes.answer"), &answer(P2_OURS)[..14]).unwrap();
    holds(
        &page(&folder),
        &["<tr><th>bytes<td class=\"wrong\">14<td>26\n", "<tr><th>reads n<td class=\"wrong\">cut off<td>3\n"],
    );
}

#[test]
fn what_is_not_judged_is_listed_without_a_drawing() {
    let folder = folder("page-of-rest");
    put(&folder, "ours", P2, P2_OURS);
    fs::write(folder.join("lonely.block"), block(P2)).unwrap();
    fs::write(folder.join("refused.block"), "").unwrap();
    fs::write(folder.join("refused.answer"), "").unwrap();
    let page = page(&folder);
    holds(&page, &["<tr><td>lonely<td>a block without an answer\n"]);
    holds(&page, &["<tr><td>refused<td>refused 1 at 0: fewer than 9 bytes\n", "1 of 3 are least"]);
    assert!(!page.contains("<figure>") && !page.contains("<tr><td>ours"));
}

#[test]
fn answers_that_are_not_least_come_before_those_that_are() {
    let folder = folder("page-of-both");
    put(&folder, "a", P2, "3, 1, 110, 111, 000");
    put(&folder, "b", P2, "4, 1, 101, 000, 111");
    let page = page(&folder);
    assert!(page.find("<h2>b</h2>").unwrap() < page.find("<h2>a</h2>").unwrap());
    holds(&page, &["<a href=\"#a0\">b</a><td>55 ", "<section id=\"a0\">\n<h2>b</h2>", "<p class=\"fault\">"]);
    holds(&page, &["<a href=\"#a1\">a</a><td>56 ", "<section id=\"a1\">\n<h2>a</h2>", "<p class=\"fine\">"]);
}

#[test]
fn special_names_are_escaped() {
    let name = "<script>alert('&\"1\"')<%2f>";
    let folder = folder("<u>names & more");
    put(&folder, name, P2, "0, 1, 001, 000, 111");
    let page = page(&folder);
    let safe = "&lt;script&gt;alert(&#39;&amp;&quot;1&quot;&#39;)&lt;%2f&gt;";
    holds(&page, &[&format!("<h2>{safe}</h2>"), &format!("<a href=\"#a0\">{safe}</a>")]);
    holds(&page, &["<title>Answers judged: &lt;u&gt;names &amp; more</title>"]);
    assert!(!page.contains("<script") && !page.contains("<u>"));
}

#[test]
fn the_page_needs_nothing_but_itself() {
    let page = page_of("alone", P2, "4, 1, 101, 000, 111");
    for foreign in ["<script", "<link", "<img", "src=", "http:", "https:", "url(", "@import", "onclick"] {
        assert!(!page.contains(foreign), "{foreign}");
    }
    assert!(page.starts_with("<!DOCTYPE html>\n") && page.ends_with("</html>\n"));
    for tag in ["section", "figure", "table", "div", "p", "h2", "b", "small", "i", "details", "pre", "code"] {
        let (opened, closed) = (format!("<{tag}"), format!("</{tag}>"));
        let starts = [">", " "].map(|end| page.matches(&format!("{opened}{end}")).count());
        assert_eq!(starts[0] + starts[1], page.matches(&closed).count(), "{tag}");
    }
}

#[test]
fn a_page_without_faults_says_so() {
    let page = page_of("fine", P2, P2_OURS);
    holds(&page, &["1 of 1 are least", "Every answer is ours."]);
    assert!(!page.contains("<section"));
}

/// Reads of 20 columns, pairs with a gap, four in each column of 1,000; every letter 0.
fn large() -> String {
    let row = |i: usize| {
        let first = 5 * i;
        let cells = (0..1000).map(|j| if j == first || j == first + 19 { "0:9" } else { "." });
        cells.collect::<Vec<&str>>().join(" ")
    };
    (0..197).map(row).collect::<Vec<String>>().join("/")
}

#[test]
fn of_a_large_block_the_columns_around_the_first_difference_are_drawn() {
    let haplotype = |wrong: usize| -> String {
        let called = |j: usize| (j.is_multiple_of(5) && j <= 980) || (j % 5 == 4 && j >= 19);
        (0..1000)
            .map(|j| {
                if j == wrong {
                    '1'
                } else if called(j) {
                    '0'
                } else {
                    '-'
                }
            })
            .collect()
    };
    let words =
        |cost: u32, wrong: usize| format!("{cost}, 0, {}, {}, {}", "0".repeat(197), haplotype(wrong), "-".repeat(1000));
    let page = page_of("large", &large(), &words(9, 700));
    assert!(page.len() < 30_000, "{} bytes", page.len());
    holds(&page, &["<b>55</b> not least: the least cost is 0", "197 reads, 1000 columns."]);
    holds(&page, &["Left out: 984 of 1000 columns, and 190 reads active in these only."]);
    let [builder, ours] = figures(&page);
    let head = "<thead><tr><th>column<th class=\"out\" title=\"698 columns left out\">⋯<th>698<th>699<th>700<th>701";
    for figure in [builder, ours] {
        holds(figure, &[head, "<th>713<th class=\"out\" title=\"286 columns left out\">⋯\n"]);
        holds(
            figure,
            &["<tr><th>read 137<td class=\"out on\"><td class=\"hole\"><td class=\"hole\"><td class=\"hole\">"],
        );
        assert!(!figure.contains("read 135<") && !figure.contains("read 143<"));
    }
    // the columns 698 to 701, of which 699 and 700 have an entry
    holds(ours, &["<tr class=\"margin\"><th>margin<td class=\"out\"><td>0<td>9<td>9<td>0<td>"]);
    holds(builder, &["<tr><th>read 140<td class=\"out\"><td><td><td class=\"l0 wrong\">0<small>:9</small><i>≠</i>"]);
    holds(builder, &["1 entry disagrees, weight 9."]);
    holds(ours, &["No entry disagrees."]);
}

#[test]
fn weights_of_five_digits_are_drawn_whole_in_fewer_columns() {
    let entries = |letter: u8| vec![format!("{letter}:65535"); 20].join(" ");
    let rows = [entries(0), entries(1), format!("1:60000 {}", vec!["0:4000"; 19].join(" "))];
    let (zeros, ones) = ("0".repeat(20), "1".repeat(20));
    let page = page_of("report-wide", &rows.join(" / "), &format!("60000, 1, 101, {ones}, {zeros}"));
    for figure in figures(&page) {
        holds(figure, &["0<small>:65535</small>", "1<small>:60000</small><i>≠</i>", "0<small>:4000</small>"]);
        holds(figure, &["<th>11<th class=\"out\" title=\"8 columns left out\">⋯\n"]);
        assert!(!figure.contains("<th>12<"), "12 columns are drawn");
    }
}

#[test]
fn a_page_that_cannot_be_written_gets_status_2_and_nothing_is_judged() {
    let folder = folder("page-unwritable");
    put(&folder, "pair", P2, P2_OURS);
    let file = folder.join("no such folder/page.html");
    let (output, error, status) = run(&words!["judge", &folder, "--report", &file]);
    assert_eq!((output.as_str(), status), ("", 2));
    assert!(error.starts_with(&format!("velejume judge: {}: cannot be written: ", file.display())), "{error}");
    let (output, error, status) = run(&words!["judge", &folder, "--report", folder.join("a.block")]);
    assert_eq!((output.as_str(), status), ("", 2));
    assert!(error.contains("a.block: does not end in .html\nusage: velejume judge "), "{error}");
    assert_eq!(names(&folder), ["pair.answer", "pair.block"]);
}

/// The text between two parts of a page.
fn between<'a>(page: &'a str, start: &str, end: &str) -> &'a str {
    page.split_once(start).unwrap().1.split_once(end).unwrap().0
}

#[test]
fn the_page_says_when_and_by_which_version_it_was_made() {
    let page = page_of("made", P2, P2_OURS);
    let made = between(&page, "<p>Made ", ".</p>\n");
    let (when, by) = made.split_once(" by ").unwrap();
    assert_eq!(by, concat!("velejume ", env!("CARGO_PKG_VERSION")));
    let shape: String = when.chars().map(|c| if c.is_ascii_digit() { '9' } else { c }).collect();
    assert_eq!(shape, "9999-99-99 99:99 UTC");
    assert!(when > "2026-01-01", "{when}");
}

#[test]
fn the_page_has_the_checksums_of_all_files_that_were_read() {
    let folder = folder("page-of-sums");
    put(&folder, "a", P2, P2_OURS);
    put(&folder, "a-b", P2, "0, 1, 001, 000, 111");
    fs::write(folder.join("c.block"), "").unwrap();
    fs::create_dir(folder.join("d.answer")).unwrap();
    fs::write(folder.join("other"), "no file of the corpus").unwrap();
    let page = page(&folder);
    let line = |name: &&str| {
        let bytes = fs::read(folder.join(name)).unwrap();
        format!("{}  {name}\n", corpus::hexadecimal(&corpus::sha256(&bytes)))
    };
    let list: String = ["a-b.answer", "a.answer", "a-b.block", "a.block", "c.block"].iter().map(line).collect();
    assert_eq!(between(&page, "<pre>", "</pre>"), list);
    assert!(list.ends_with("e3b0c44298fc1c149afbf4c8996fb92427ae41e4649b934ca495991b7852b855  c.block\n"));
    let sum = corpus::hexadecimal(&corpus::sha256(list.as_bytes()));
    holds(&page, &["Judged from 5 files.", &format!("<code>{sum}</code>")]);
}

#[test]
fn a_share_has_a_page_of_its_own() {
    let folder = folder("page-of-share");
    put(&folder, "a", P2, "0, 1, 001, 000, 111");
    put(&folder, "b", P2, "0, 1, 001, 000, 111");
    let file = folder.join("page.html");
    assert_eq!(run(&words!["judge", &folder, "--report", &file, "--part", "2/2"]).2, 1);
    let page = fs::read_to_string(file).unwrap();
    holds(&page, &["<h1>Answers judged: page-of-share, part 2 of 2</h1>", "<h2>b</h2>", "Judged from 2 files."]);
    assert!(!page.contains("<h2>a</h2>"));
}

/// A folder with so many answers that cost too much, one that is least, one that is ours and a block without an answer.
fn many(name: &str, wrong: usize) -> PathBuf {
    let folder = folder(name);
    (0..wrong).for_each(|i| put(&folder, &format!("n{i:03}"), "0:5 / 1:5", "5, 1, 00, -, -"));
    put(&folder, "a-least", "0:5 / 1:5", "0, 0, 10, 1, 0");
    put(&folder, "ours", "0:5 / 1:5", "0, 0, 01, 0, 1");
    fs::write(folder.join("lonely.block"), block(P2)).unwrap();
    folder
}

#[test]
fn two_hundred_answers_are_drawn_on_one_page() {
    let folder = many("page-of-200", 199);
    let page = page(&folder);
    assert_eq!(page.matches("<section id=").count(), 200);
    assert_eq!(names(&folder).iter().filter(|name| name.to_str().unwrap().starts_with("page")).count(), 1);
}

#[test]
fn more_than_two_hundred_are_cut_into_pages_with_an_index() {
    let folder = many("page-of-401", 400);
    let out = crate::common::folder("page-of-401-out");
    let file = out.join("a page #1.html");
    assert_eq!(run(&words!["judge", &folder, "--report", &file]).2, 1);
    let pages = ["a page #1-1.html", "a page #1-2.html", "a page #1-3.html"];
    assert_eq!(names(&out), [&pages[..], &["a page #1.html", "a page #1.sha256"]].concat());
    let index = fs::read_to_string(&file).unwrap();
    assert!(!index.contains("<figure>") && !index.contains("<pre>"));
    holds(
        &index,
        &["<tr><td>lonely<td>a block without an answer\n", "<a href=\"a%20page%20%231.sha256\">The list</a>"],
    );
    holds(&index, &["<a href=\"a%20page%20%231-1.html#a0\">n000</a><td>55 ", "-1.html#a199\">n199</a>"]);
    holds(&index, &["-2.html#a200\">n200</a>", "-3.html#a400\">a-least</a><td>56 ", "page%20%231-3.html\">3</a></p>"]);
    let texts = pages.map(|name| fs::read_to_string(out.join(name)).unwrap());
    assert_eq!(texts.each_ref().map(|text| text.matches("<section id=").count()), [200, 200, 1]);
    holds(&texts[1], &["<section id=\"a200\">\n<h2>n200</h2>", "page 2 of 3</h1>", "How to read the drawings"]);
    let ways = "<a href=\"a%20page%20%231.html\">index</a> <a href=\"a%20page%20%231-1.html\">page before</a> \
                <a href=\"a%20page%20%231-3.html\">next page</a>";
    assert_eq!(texts[1].matches(ways).count(), 2);
    assert!(!texts[0].contains("page before") && !texts[2].contains("next page"));
    let list = fs::read_to_string(out.join("a page #1.sha256")).unwrap();
    assert_eq!(list.lines().count(), 805);
    holds(&index, &[&format!("<code>{}</code>", corpus::hexadecimal(&corpus::sha256(list.as_bytes())))]);
}
