//! The repository's README shows the first example of this crate's documents, which runs as a test, and a part of
//! examples/first.c, which `make first` runs.

/// The lines of the first block of code behind a heading, without what each line starts with.
fn first_block<'t>(text: &'t str, heading: &str, prefix: &str) -> Vec<&'t str> {
    let line = |line: &'t str| line.strip_prefix(prefix).unwrap_or(line).trim_start_matches(' ').trim_end();
    let mut lines = text.lines().skip_while(|line| !line.contains(heading)).map(line);
    lines.by_ref().find(|line| line.starts_with("```")).expect("a block behind the heading");
    lines.take_while(|line| !line.starts_with("```")).collect()
}

#[test]
fn the_readme_shows_the_example_that_is_tested() {
    let shown = first_block(include_str!("../../../README.md"), "## A first use, in Rust", "");
    let tested = first_block(include_str!("../../src/lib.rs"), "# A first use", "//!");
    assert!(shown.len() > 20);
    assert_eq!(shown, tested);
}

#[test]
fn the_readme_shows_a_part_of_the_example_for_c() {
    let shown = first_block(include_str!("../../../README.md"), "## A first use, in C", "");
    let example: Vec<&str> = include_str!("../../../examples/first.c").lines().map(str::trim).collect();
    assert!(shown.len() > 15);
    assert!(example.windows(shown.len()).any(|lines| lines == shown));
}
