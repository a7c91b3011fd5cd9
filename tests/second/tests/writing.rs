//! A program table is written back to its text, and a table to which no accepted text reads is 18.

mod common;

use common::*;
use second::generate;
use second::input::parts;
use second::layout::{
    self, BLOCK_COUNT, EDITION, FIRST_LINES, KIND_COUNT, LINE, LINES, LINE_COUNT,
};
use second::numbers::*;
use second::reading::read;
use second::script::Edition;
use second::shapes::longest_script;
use second::writing::{write, Unwritten};

/// Every form of a line.
const FORMS: &str = "(kind (fields 0) (does))\n\
                     (kind (fields 2) (does 2))\n\
                     (kind (fields 4) (does 2 2 2 2))\n\
                     (thread)\n\
                     (let (read 0))\n\
                     (let (take 1))\n\
                     (let (field 2 0))\n\
                     (let (swap 3 1 (take 2)))\n\
                     (let (call 1 3 (read 4)))\n\
                     (let (new imm 0))\n\
                     (let (new iso 1 (read 1) (take 2)))\n\
                     (let (new unsafe 2 (read 1) (read 2) (read 3) (take 4)))\n\
                     (let (cast local (take 8)))\n\
                     (let (spawn 1))\n\
                     (let (send 10 (take 9)))\n\
                     (let (recv 10))\n\
                     (give (take 12))\n\
                     (thread)\n\
                     (give (read 0))\n\
                     (method)\n\
                     (give (take 1))\n";

/// The line of `FORMS` with this number stands at this word.
fn row(line: usize) -> usize {
    LINES + line * LINE
}

fn table(script: &str) -> Vec<u16> {
    layout::program(&program(script))
}

/// The table of `FORMS` with some words changed.
fn changed(words: &[(usize, u16)]) -> Vec<u16> {
    let mut table = table(FORMS);
    for (place, word) in words {
        table[*place] = *word;
    }
    table
}

/// What is written, or why nothing is.
fn written(table: &[u16]) -> Result<String, Unwritten> {
    write(table, MOST_TEXT).map(|text| String::from_utf8(text).unwrap())
}

fn comes_back(script: &str) {
    assert_eq!(written(&table(script)), Ok(script.to_string()));
}

/// `FORMS` with some words changed is written as `FORMS` with one line changed.
fn written_as(words: &[(usize, u16)], from: &str, to: &str) {
    assert!(FORMS.contains(from), "{}", from);
    let expected = FORMS.replacen(from, to, 1);
    assert_eq!(written(&changed(words)), Ok(expected), "{:?}", words);
}

fn no_script(words: &[(usize, u16)], why: Unwritten) {
    assert_eq!(written(&changed(words)), Err(why), "{:?}", words);
    assert_eq!(why.number(), NO_SCRIPT);
}

#[test]
fn every_form_comes_back() {
    comes_back(FORMS);
    comes_back(&case_a());
    comes_back(&case_g());
    comes_back("(thread)\n(give (read 0))\n");
}

/// Case A's words as docs/LAYOUT.md has them, written out by hand.
#[test]
fn case_a_is_written_from_its_words() {
    let rows = [
        [1, 0, 0],
        [2, 0, 0],
        [11, 1, 0],
        [9, 1, 0],
        [12, 1, 5],
        [4, 2, 0],
        [2, 0, 0],
        [13, 0, 0],
        [4, 3, 0],
    ];
    let mut words = vec![0; 8192];
    words[..3].copy_from_slice(&[1, 2, 9]);
    words[8..10].copy_from_slice(&[2, 7]);
    for (number, row) in rows.iter().enumerate() {
        words[72 + 8 * number..75 + 8 * number].copy_from_slice(row);
    }
    assert_eq!(written(&words), Ok(case_a()));
}

#[test]
fn numbers_have_no_needless_zero() {
    for number in [0, 1, 9, 10, 11, 99, 100, 101, 199, 200, 255] {
        for line in [
            format!("(let (field 0 {}))", number),
            format!("(let (swap 0 {} (read 0)))", number),
            format!("(let (call 0 {} (take 0)))", number),
        ] {
            comes_back(&text(&["(thread)", &line, "(give (read 0))"]));
        }
    }
}

#[test]
fn every_number_of_fields_and_of_methods_comes_back() {
    for fields in 0..=4 {
        for methods in 0..=4 {
            let kind = format!("(kind (fields {}) (does{}))", fields, " 1".repeat(methods));
            let blocks = ["(thread)", "(give (read 0))", "(method)", "(give (read 1))"];
            comes_back(&[text(&[&kind]), text(&blocks)].concat());
        }
    }
}

/// 32 kinds, 64 blocks, 16 slots in a block and 512 lets: every row of the table is a line.
#[test]
fn every_most_comes_back() {
    let kinds = PLAIN_KIND.repeat(MOST_KINDS);
    let many = "(let (read 0))\n".repeat(14);
    let first = format!("(thread)\n(let (new local 31))\n{}(give (read 15))\n", many);
    let seven = "(let (take 1))\n".repeat(7);
    let block = format!("(thread)\n(let (spawn 63))\n{}(give (take 0))\n", seven);
    let last = "(thread)\n(let (recv 0))\n(give (read 0))\n";
    let script = [&kinds, &first, &block.repeat(62), last].concat();
    let words = table(&script);
    let most = [MOST_KINDS, MOST_BLOCKS, MOST_LINES].map(|most| most as u16);
    assert_eq!(words[..3], most);
    assert_eq!(words[5440..5448], [4, 0, 0, 0, 0, 0, 0, 0]);
    comes_back(&script);
}

/// One digit less comes back; one digit more is a text that is too long for the reader.
#[test]
fn a_text_of_16384_bytes_comes_back_and_a_longer_one_is_none() {
    let script = longest_script(Edition::One);
    assert_eq!(script.len(), MOST_TEXT);
    comes_back(&script);
    let first_let = LINES + 19 * LINE;
    let mut words = table(&script);
    assert_eq!(words[first_let..first_let + 4], [7, 0, 25, 0]);
    words[first_let + 2] = 9;
    assert_eq!(written(&words), Ok(script.replacen(" 25 ", " 9 ", 1)));
    words[first_let + 2] = 99;
    assert_eq!(written(&words), Ok(script.replacen(" 25 ", " 99 ", 1)));
    words[first_let + 2] = 100;
    assert_eq!(written(&words), Err(Unwritten::Refused(OVERLONG)));
}

#[test]
fn a_table_of_zeros_is_no_script() {
    assert_eq!(
        written(&vec![0; TABLE_WORDS]),
        Err(Unwritten::Refused(UNFINISHED))
    );
}

#[test]
fn a_count_that_is_off_is_no_script() {
    let words = table(FORMS);
    for place in [KIND_COUNT, BLOCK_COUNT] {
        let word = words[place];
        for other in [0, word - 1, word + 1, word + 256, u16::MAX] {
            no_script(&[(place, other)], Unwritten::OtherWords);
        }
    }
    let lines = words[LINE_COUNT];
    assert_eq!(lines, 21);
    for fewer in [0, 3, 4, 20] {
        no_script(&[(LINE_COUNT, fewer)], Unwritten::Refused(UNFINISHED));
    }
    no_script(&[(LINE_COUNT, 19)], Unwritten::Refused(DANGLING));
    for more in [lines + 1, 672, 673, 1024, u16::MAX] {
        no_script(&[(LINE_COUNT, more)], Unwritten::NoForm);
    }
}

#[test]
fn a_block_that_begins_elsewhere_is_no_script() {
    let words = table(FORMS);
    assert_eq!(words[FIRST_LINES..FIRST_LINES + 4], [4, 18, 20, 0]);
    for block in 0..3 {
        let place = FIRST_LINES + block;
        for other in [0, words[place] - 1, words[place] + 1] {
            no_script(&[(place, other)], Unwritten::OtherWords);
        }
    }
    no_script(
        &[(FIRST_LINES, 18), (FIRST_LINES + 1, 4)],
        Unwritten::OtherWords,
    );
}

/// Words that are zero whatever the script; of a row, those after its last part.
#[test]
fn a_word_in_an_unused_place_is_no_script() {
    let words = table(FORMS);
    let mut places = vec![3, 7, FIRST_LINES + 3, LINES - 1, 5447, 5448, 8191];
    let lets = [
        (4, 2),
        (6, 3),
        (7, 4),
        (8, 4),
        (12, 3),
        (13, 2),
        (14, 3),
        (15, 2),
    ];
    let others = [(3, 1), (16, 2), (19, 1), (20, 2)];
    for (line, first) in lets.into_iter().chain(others) {
        places.extend(row(line) + first..row(line + 1));
    }
    for place in places {
        assert_eq!(words[place], 0, "{}", place);
        for word in [1, u16::MAX] {
            no_script(&[(place, word)], Unwritten::OtherWords);
        }
    }
}

/// The row is one that could follow; only the counts leave it out.
#[test]
fn a_row_past_the_last_is_no_script() {
    let (opener, give) = ((row(21), 2), (row(22), 4));
    for rows in [vec![opener], vec![opener, give], vec![(row(671), 2)]] {
        no_script(&rows, Unwritten::OtherWords);
    }
    let counted = [
        opener,
        give,
        (BLOCK_COUNT, 4),
        (LINE_COUNT, 23),
        (FIRST_LINES + 3, 22),
    ];
    let expected = format!("{}(thread)\n(give (read 0))\n", FORMS);
    assert_eq!(written(&changed(&counted)), Ok(expected));
    for left_out in 0..counted.len() {
        let mut some = counted.to_vec();
        some.remove(left_out);
        assert!(written(&changed(&some)).is_err(), "{:?}", some);
    }
}

#[test]
fn a_number_that_is_no_form_is_no_script() {
    for line in [0, 3, 4, 16, 20] {
        for number in [0, 15, 16, 255, 256, 270, u16::MAX] {
            no_script(&[(row(line), number)], Unwritten::NoForm);
        }
    }
}

/// No text has a number over 255, a slot over 255 or a fifth capability.
#[test]
fn a_part_that_no_text_has_is_no_script() {
    let none = |place, word| no_script(&[(place, word)], Unwritten::NoForm);
    for (line, part) in [(0, 1), (6, 1), (6, 2), (8, 2), (9, 2), (13, 1), (15, 1)] {
        for word in [256, 1000, u16::MAX] {
            none(row(line) + part, word);
        }
    }
    for (line, part) in [(4, 1), (7, 3), (12, 2), (14, 2), (16, 1)] {
        for word in [512, 513, 2000, u16::MAX] {
            none(row(line) + part, word);
        }
    }
    for word in [257, 1001, u16::MAX] {
        none(row(1) + 2, word);
    }
    for word in [513, 2001, u16::MAX] {
        none(row(10) + 4, word);
    }
    for word in [4, 256, u16::MAX] {
        none(row(9) + 1, word);
        none(row(12) + 1, word);
    }
}

/// A method block or an operand that stands after a missing one.
#[test]
fn a_gap_among_the_parts_is_no_script() {
    no_script(&[(row(1) + 4, 3)], Unwritten::OtherWords);
    no_script(&[(row(1) + 2, 0), (row(1) + 3, 3)], Unwritten::OtherWords);
    no_script(&[(row(9) + 4, 1)], Unwritten::OtherWords);
    no_script(&[(row(10) + 4, 0)], Unwritten::Refused(DANGLING));
    no_script(
        &[(row(10) + 4, 0), (row(10) + 5, 3)],
        Unwritten::Refused(DANGLING),
    );
}

/// Rows that are forms, each alone, and no script together.
#[test]
fn what_the_reader_refuses_is_no_script() {
    let refused = |words: &[(usize, u16)], number| no_script(words, Unwritten::Refused(number));
    refused(&[(row(3), 4)], MALFORMED);
    refused(&[(row(17), 1)], MALFORMED);
    refused(&[(row(5), 2)], MALFORMED);
    refused(&[(row(20), 3)], MALFORMED);
    refused(&[(row(0) + 1, 5)], OVER_COUNT);
    refused(&[(row(0) + 1, 255)], OVER_COUNT);
    refused(&[(row(2) + 6, 3)], OVER_COUNT);
    refused(&[(row(11) + 7, 1)], OVER_COUNT);
    refused(&[(row(6) + 1, 3)], UNBOUND);
    refused(&[(row(6) + 1, 255)], UNBOUND);
    refused(&[(row(4) + 1, 2)], UNBOUND);
    refused(&[(row(16) + 1, 26)], UNBOUND);
    refused(&[(row(20) + 1, 1)], SELF_TAKEN);
    refused(&[(row(20), 5)], UNFINISHED);
    refused(&[(row(1) + 2, 1)], DANGLING);
    refused(&[(row(1) + 2, 256)], DANGLING);
    refused(&[(row(9) + 2, 1)], DANGLING);
    refused(&[(row(9) + 2, 255)], DANGLING);
    refused(&[(row(13) + 1, 2)], DANGLING);
    refused(&[(row(13) + 1, 64)], DANGLING);
    refused(&[(row(3), 3)], DANGLING);
}

/// A change that some other text reads to is written as that text.
#[test]
fn another_script_is_written_as_it_is() {
    written_as(&[(row(1) + 2, 0)], "(does 2)", "(does)");
    written_as(&[(row(4) + 1, 1)], "(let (read 0))", "(let (take 0))");
    written_as(&[(row(6) + 2, 255)], "(field 2 0)", "(field 2 255)");
    written_as(&[(row(6), 12)], "(field 2 0)", "(send 2 (read 0))");
    written_as(&[(row(8) + 2, 100)], "(call 1 3 ", "(call 1 100 ");
    written_as(&[(row(12) + 1, 3)], "(cast local", "(cast unsafe");
    written_as(&[(row(13) + 1, 0)], "(spawn 1)", "(spawn 0)");
    written_as(&[(row(1) + 3, 3)], "(does 2)", "(does 2 2)");
    written_as(&[(row(18) + 1, 1)], "(give (read 0))", "(give (take 0))");
}

/// 9 for either, also where the table holds no script; the words past the 8,192 are not looked at.
#[test]
fn a_short_table_or_buffer_comes_first() {
    let (script, zeros) = (table(FORMS), vec![0; TABLE_WORDS]);
    assert_eq!(Unwritten::Short.number(), SHORT_TABLE);
    for words in [&script, &zeros] {
        for length in [0, 1, 72, 8000, TABLE_WORDS - 1] {
            assert_eq!(write(&words[..length], MOST_TEXT), Err(Unwritten::Short));
            assert_eq!(write(&words[..length], 0), Err(Unwritten::Short));
        }
        for buffer in [0, 1, FORMS.len(), MOST_TEXT - 1] {
            assert_eq!(write(words, buffer), Err(Unwritten::Short));
        }
    }
    for buffer in [MOST_TEXT, MOST_TEXT + 1, 100_000] {
        assert_eq!(write(&script, buffer), Ok(FORMS.as_bytes().to_vec()));
    }
    let longer = [script, vec![u16::MAX; 3]].concat();
    assert_eq!(written(&longer), Ok(FORMS.to_string()));
}

/// The words of copies, written out by hand: row 0 is the line after `(script 2)`.
#[test]
fn copies_are_written_from_their_words() {
    let script = edition_2(&text(&[
        "(kind (fields 0) (does))",
        "(thread)",
        "(let (copy imm 0))",
        "(let (copy local 1))",
        "(let (copy unsafe 2))",
        "(give (take 3))",
    ]));
    let rows = [
        [1, 0, 0],
        [2, 0, 0],
        [14, 0, 0],
        [14, 2, 1],
        [14, 3, 2],
        [4, 7, 0],
    ];
    let mut words = vec![0; 8192];
    words[..4].copy_from_slice(&[1, 1, 6, 2]);
    words[8] = 2;
    for (number, row) in rows.iter().enumerate() {
        words[72 + 8 * number..75 + 8 * number].copy_from_slice(row);
    }
    assert_eq!(table(&script), words);
    assert_eq!(written(&words), Ok(script));
}

/// Word 3 alone tells a text from the same text behind `(script 2)`.
#[test]
fn the_tables_of_both_editions_differ_in_word_3_alone() {
    for script in [FORMS, &case_a(), &case_g(), "(thread)\n(give (read 0))\n"] {
        let (one, two) = (table(script), table(&edition_2(script)));
        assert_eq!((one[EDITION], two[EDITION]), (0, 2));
        assert_eq!((&one[..3], &one[4..]), (&two[..3], &two[4..]));
        assert_eq!(written(&one), Ok(script.to_string()));
        assert_eq!(written(&two), Ok(edition_2(script)));
    }
}

#[test]
fn another_edition_is_no_script() {
    for word in [1, 3, 4, 256, 258, u16::MAX] {
        no_script(&[(EDITION, word)], Unwritten::OtherWords);
    }
    let mut words = table(&longest_script(Edition::One));
    words[EDITION] = 2;
    assert_eq!(written(&words), Err(Unwritten::Refused(OVERLONG)));
    let longest = longest_script(Edition::Two);
    let mut words = table(&longest);
    assert_eq!(written(&words), Ok(longest.clone()));
    words[EDITION] = 0;
    assert_eq!(
        written(&words),
        Ok(longest["(script 2)\n".len()..].to_string())
    );
}

/// A copy in the stead of line 6, where slots 0 to 2 are filled.
#[test]
fn a_copy_needs_the_second_edition_and_a_k_that_is_not_iso() {
    let copy = |edition: u16, cap: u16, slot: u16, after: u16| {
        let row = [14, cap, slot, after].into_iter().zip(row(6)..);
        let row = row.map(|(word, place)| (place, word));
        let words: Vec<(usize, u16)> = row.chain([(EDITION, edition)]).collect();
        written(&changed(&words))
    };
    let expected = |line: &str| Ok(edition_2(&FORMS.replacen("(field 2 0)", line, 1)));
    assert_eq!(copy(2, 0, 0, 0), expected("(copy imm 0)"));
    assert_eq!(copy(2, 2, 1, 0), expected("(copy local 1)"));
    assert_eq!(copy(2, 3, 2, 0), expected("(copy unsafe 2)"));
    assert_eq!(copy(2, 1, 0, 0), Err(Unwritten::Refused(MALFORMED)));
    for cap in 0..4 {
        assert_eq!(copy(0, cap, 0, 0), Err(Unwritten::Refused(MALFORMED)));
        assert_eq!(copy(1, cap, 0, 0), Err(Unwritten::Refused(MALFORMED)));
    }
    for cap in [4, 256, u16::MAX] {
        assert_eq!(copy(2, cap, 0, 0), Err(Unwritten::NoForm));
    }
    for slot in [256, 1000, u16::MAX] {
        assert_eq!(copy(2, 0, slot, 0), Err(Unwritten::NoForm));
    }
    for slot in [3, 15, 16, 255] {
        assert_eq!(copy(2, 0, slot, 0), Err(Unwritten::Refused(UNBOUND)));
    }
    assert_eq!(copy(2, 0, 0, 1), Err(Unwritten::OtherWords));
}

#[test]
fn random_scripts_come_back() {
    let mut accepted = [0, 0];
    for n in 0..2_000 {
        let input = generate::input(20_261_116, n);
        let script = parts(&input).map_or(Vec::new(), |parts| parts.script.to_vec());
        if let Ok(program) = read(&script) {
            assert_eq!(write(&layout::program(&program), MOST_TEXT), Ok(script));
            accepted[program.edition as usize] += 1;
        }
    }
    assert!(accepted.iter().all(|count| *count > 400), "{:?}", accepted);
}
