//! The line finder gives the very part of the caller's text: its bytes and where they stand.

use second::lines::line;

/// Where the part stands in the text, and its bytes.
fn part(text: &str, n: usize) -> (usize, String) {
    let found = line(text.as_bytes(), n);
    let place = found.as_ptr() as usize - text.as_ptr() as usize;
    (place, String::from_utf8(found.to_vec()).unwrap())
}

fn at(place: usize, bytes: &str) -> (usize, String) {
    (place, bytes.to_string())
}

#[test]
fn lines_of_a_text_that_ends_in_lf() {
    let text = "(thread)\n\n(give (read 0))\n";
    assert_eq!(part(text, 0), at(0, "(thread)"));
    assert_eq!(part(text, 1), at(9, ""));
    assert_eq!(part(text, 2), at(10, "(give (read 0))"));
    assert_eq!(part(text, 3), at(26, ""));
    assert_eq!(part(text, 4), at(26, ""));
    assert_eq!(part(text, usize::MAX), at(26, ""));
}

#[test]
fn a_last_line_without_lf() {
    assert_eq!(part("ab\ncd", 0), at(0, "ab"));
    assert_eq!(part("ab\ncd", 1), at(3, "cd"));
    assert_eq!(part("ab\ncd", 2), at(5, ""));
    assert_eq!(part("ab", 0), at(0, "ab"));
    assert_eq!(part("ab", 1), at(2, ""));
}

#[test]
fn an_empty_text_and_a_bare_lf() {
    assert_eq!(part("", 0), at(0, ""));
    assert_eq!(part("", 5), at(0, ""));
    assert_eq!(part("\n", 0), at(0, ""));
    assert_eq!(part("\n", 1), at(1, ""));
    assert_eq!(part("\n\n", 1), at(1, ""));
    assert_eq!(part("\n\n", 2), at(2, ""));
}

/// Any bytes are text to the line finder, and lines can be longer than a script's most.
#[test]
fn any_bytes() {
    let mut text = vec![0xFF; 20_000];
    text.push(b'\n');
    text.push(0);
    assert_eq!(line(&text, 0), &text[..20_000]);
    assert_eq!(line(&text, 1), &[0]);
}
