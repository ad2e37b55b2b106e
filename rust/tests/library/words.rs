//! Each refusal's number and words are the same wherever they stand.

use driftwicket::Refusal;

const HEADER: &str = include_str!("../../../include/driftwicket.h");
const TERMINAL: &str = include_str!("../../../crates/octets/src/refusal.rt");

/// The first text between quotation marks behind a mark.
fn quoted<'t>(text: &'t str, mark: &str) -> &'t str {
    let behind = text.split_once(mark).unwrap_or_else(|| panic!("{mark} stands there")).1;
    behind.split('"').nth(1).expect("a text in quotation marks")
}

/// A refusal's name as C and the crates write it.
fn name(refusal: Refusal) -> String {
    let mut name = String::new();
    for letter in format!("{refusal:?}").chars() {
        if letter.is_uppercase() && !name.is_empty() {
            name.push('_');
        }
        name.push(letter.to_ascii_uppercase());
    }
    name
}

#[test]
fn the_header_has_the_same_numbers_and_words() {
    for refusal in Refusal::ALL {
        let name = name(refusal);
        assert!(HEADER.contains(&format!("DW_REFUSED_{name} = {}", refusal.number())), "{name}");
        assert_eq!(quoted(HEADER, &format!("case DW_REFUSED_{name}: return")), refusal.words());
    }
}

#[test]
fn the_terminal_has_the_same_words() {
    for refusal in Refusal::ALL {
        assert!(TERMINAL.contains(&format!("    {refusal:?} = {},", refusal.number())), "{refusal:?}");
        assert_eq!(quoted(TERMINAL, &format!("Refusal::{refusal:?} =>")), refusal.words());
    }
}
