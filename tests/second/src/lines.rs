//! The line finder: line n of a text, without its LF, as the very part of the caller's text.

/// Past the last line it gives the empty part at the end.
pub fn line(text: &[u8], n: usize) -> &[u8] {
    let mut rest = text;
    for _ in 0..n {
        match rest.iter().position(|byte| *byte == b'\n') {
            Some(place) => rest = &rest[place + 1..],
            None => return &text[text.len()..],
        }
    }
    match rest.iter().position(|byte| *byte == b'\n') {
        Some(place) => &rest[..place],
        None => rest,
    }
}
