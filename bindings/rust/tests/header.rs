//! The C header, the changelog and this crate say the same: version, sizes, numbers, sentences, and names by the table of words.

use pas::{Bidder, Constraint, Kind, Refusal, SheetBuilder, Slot};

const HEADER: &str = include_str!("../../../include/pas.h");
const CHANGELOG: &str = include_str!("../../../CHANGELOG.md");

/// What the header defines a name as.
fn defined(name: &str) -> &'static str {
    let text = |line: &'static str| line.strip_prefix("#define ")?.strip_prefix(name)?.strip_prefix(' ');
    HEADER.lines().find_map(text).unwrap_or_else(|| panic!("the header defines {name}"))
}

/// A number of a refused call in the header: its name, the number and the sentence beside it.
struct Entry {
    name: &'static str,
    number: u32,
    sentence: &'static str,
}

/// Reads a line such as `PAS_WRONG_MARK = 2,  /* The mark is not P A S. */`; none for other lines.
fn entry(line: &'static str) -> Option<Entry> {
    let (name, rest) = line.trim().strip_prefix("PAS_")?.split_once(" = ")?;
    let (number, sentence) = rest.split_once("/*")?;
    let number = number.trim().trim_end_matches(',').parse().ok()?;
    Some(Entry { name, number, sentence: sentence.trim_end_matches("*/").trim() })
}

/// A name of the header as this crate writes it, with the words of docs/EMBEDDING.md: WRONG_PLACES is WrongSlots.
fn in_rust(name: &str) -> String {
    let word = |word: &str| word[..1].to_string() + &word[1..].to_lowercase();
    let name: String = name.split('_').map(word).collect();
    name.replace("Places", "Slots").replace("Condition", "Constraint")
}

#[test]
fn the_header_and_the_crate_have_one_version() {
    let numbers = ["MAJOR", "MINOR", "PATCH"].map(|part| defined(&format!("PAS_VERSION_{part}")));
    assert_eq!(defined("PAS_VERSION"), format!("\"{}\"", pas::VERSION));
    assert_eq!(numbers.join("."), pas::VERSION);
}

#[test]
fn the_newest_version_of_the_changelog_is_that_of_the_crate() {
    let mut titles = CHANGELOG.lines().filter_map(|line| line.strip_prefix("## "));
    let numbered = titles.find(|title| title.starts_with(|first: char| first.is_ascii_digit())).expect("a version has a title");
    assert_eq!(numbered.split([' ', ',']).next(), Some(pas::VERSION));
}

/// What the header defines a name as, for one that is a number such as `64u`.
fn number(name: &str) -> usize {
    defined(name).trim_end_matches('u').parse().unwrap_or_else(|_| panic!("{name} is a number"))
}

#[test]
fn the_headers_sizes_are_those_of_the_longest_sheets() {
    let (bidders, slots, constraints) = (number("PAS_MAX_BIDDERS"), number("PAS_MAX_PLACES"), number("PAS_MAX_CONDITIONS"));
    let own = |owner: usize, slot: usize| Constraint { owner: Bidder(owner as u8), kind: Kind::OwnSlot(Slot(slot as u8)) };
    let different = (0..constraints).map(|at| own(at / slots + 1, at % slots + 1));
    let sheet = SheetBuilder::new().bids(vec![0; bidders]).effects(vec![1; slots]).constraints(different);
    let length = |sheet: SheetBuilder| sheet.build().expect("the header's sizes are accepted").as_bytes().len();
    let (without, with) = (length(sheet.clone()), length(sheet.tick(number("PAS_MAX_TICK") as u32)));
    assert_eq!(without, number("PAS_HEADER_LENGTH") + 4 * (slots + bidders + constraints));
    assert_eq!(with, without + number("PAS_TICK_LENGTH"));
    assert_eq!(with, number("PAS_MAX_SHEET_LENGTH"));
}

#[test]
fn the_headers_highest_floor_is_accepted_and_no_higher() {
    let sheet = SheetBuilder::new().bids([1]).effects([1]).build().expect("a good sheet");
    let highest = number("PAS_MAX_FLOOR") as u32;
    assert!(sheet.play_floors(&[highest]).is_ok());
    assert_eq!(sheet.play_floors(&[highest + 1]), Err(Refusal::WrongFloor));
}

#[test]
fn the_headers_length_of_the_longest_terms_is_enough_and_no_less() {
    let (bidders, slots, length) = (number("PAS_MAX_BIDDERS"), number("PAS_MAX_PLACES"), number("PAS_MAX_TERMS_LENGTH"));
    let mut bars = vec![slots as u8; bidders];
    bars[0] = 0;
    let write = |room: usize| pas::slot_terms_into(bidders, slots, Bidder(1), Slot(1), &bars, &mut vec![0; room]);
    assert_eq!(write(length), Ok(length / 4));
    assert_eq!(write(length - 1), Err(Refusal::ResultTooShort));
}

#[test]
fn the_headers_length_of_the_longest_list_by_rivals_is_enough_and_no_less() {
    let (bidders, slots, length) = (number("PAS_MAX_BIDDERS"), number("PAS_MAX_PLACES"), number("PAS_MAX_ABOVE_LENGTH"));
    let others: Vec<Bidder> = (2..=bidders as u8).map(Bidder).collect();
    let mut longest = 0;
    for slots in 1..=slots {
        for rivals in (0..bidders).map(|count| &others[..count]) {
            let mut room = vec![0; length + 1];
            match pas::above_terms_into(bidders, slots, Bidder(1), rivals, &mut room) {
                Ok(count) => longest = longest.max(4 * count),
                Err(refusal) => assert_eq!(refusal, Refusal::TooManyTerms),
            }
        }
    }
    assert_eq!(longest, length);
}

#[test]
fn each_refusal_has_the_number_the_name_and_the_sentence_of_the_header() {
    let entries: Vec<Entry> = HEADER.lines().filter_map(entry).collect();
    let in_checking_order = (0..=6)
        .chain([26])
        .chain(7..=9)
        .chain([27])
        .chain(10..=13)
        .chain([28, 30, 31, 14, 15, 29])
        .chain(16..=18)
        .chain(20..=25)
        .chain([19]);
    assert_eq!(entries.iter().map(|entry| entry.number).collect::<Vec<_>>(), in_checking_order.collect::<Vec<_>>());
    for Entry { name, number, sentence } in entries.into_iter().skip(1) {
        let refusal = Refusal::from_number(number).expect("a refusal has this number");
        assert_eq!(format!("{refusal:?}"), in_rust(name));
        // A C file has no multiplication sign.
        assert_eq!(refusal.to_string().replace("× ", ""), sentence);
    }
}
