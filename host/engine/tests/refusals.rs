//! The limits and their texts, as the C header and the table of refusals in README.md have them.

use std::path::Path;

use engine::{Limit, Refusal};

/// A file of the repository.
fn file(name: &str) -> String {
    let path = Path::new(env!("CARGO_MANIFEST_DIR"))
        .join("../..")
        .join(name);
    std::fs::read_to_string(&path).unwrap_or_else(|why| panic!("{}: {why}", path.display()))
}

/// Number, name and text of a line `X(8, IDENTIFIER, "an identifier is not above the one before") \`.
fn entry(line: &str) -> Option<(u32, String, String)> {
    let (number, rest) = line.trim().strip_prefix("X(")?.split_once(", ")?;
    let (name, rest) = rest.split_once(", \"")?;
    let (text, _) = rest.split_once("\")")?;
    let number = number.parse().expect("a number");
    Some((number, name.to_string(), text.to_string()))
}

/// A case's name in upper snake case.
fn upper_snake(name: &str) -> String {
    let mut snake = String::new();
    for letter in name.chars() {
        if letter.is_uppercase() && !snake.is_empty() {
            snake.push('_');
        }
        snake.extend(letter.to_uppercase());
    }
    snake
}

#[test]
fn the_list_of_the_header() {
    let header = file("include/gondwize.h");
    let listed: Vec<_> = header.lines().filter_map(entry).collect();
    assert_eq!(listed.len(), Limit::ALL.len(), "{listed:?}");
    for (listed, limit) in listed.into_iter().zip(Limit::ALL) {
        let name = upper_snake(&format!("{limit:?}"));
        assert_eq!(listed, (limit.number(), name, limit.text().into()));
    }
}

#[test]
fn the_table_of_the_readme() {
    let readme = file("README.md");
    let (_, after) = readme.split_once("## Refusals").expect("its heading");
    let section = after.split("\n## ").next().expect("its text");
    let first_cell = |line: &str| -> Option<u32> { line.split('|').nth(1)?.trim().parse().ok() };
    let numbers: Vec<u32> = section.lines().filter_map(first_cell).collect();
    assert_eq!(numbers, Limit::ALL.map(Limit::number));
}

#[test]
fn numbers_from_1_to_24() {
    let numbers: Vec<u32> = (1..=24).collect();
    assert_eq!(Limit::ALL.map(Limit::number)[..], numbers);
}

/// What is displayed has the limit's number and text, and the place.
#[test]
fn displayed() {
    for limit in Limit::ALL {
        assert_eq!(limit.to_string(), limit.text());
        for place in [0, 1, 128, 4095] {
            let (number, text) = (limit.number(), limit.text());
            let refusal = Refusal { limit, place };
            assert_eq!(
                refusal.to_string(),
                format!("refused {number} at {place}: {text}")
            );
        }
    }
    let limit = Limit::Identifier;
    assert_eq!(
        Refusal { limit, place: 2 }.to_string(),
        "refused 8 at 2: an identifier is not above the one before"
    );
}
