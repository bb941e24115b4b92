//! What the repository's README and its legend quote stands in the examples and
//! in the definitions, word for word.

const README: &str = include_str!("../../../README.md");
const RUST: &str = include_str!("../examples/area.rs");
const C: &str = include_str!("../../../examples/c/area.c");

/// The code that the README shows between fences of this language.
fn quotes(language: &str) -> Vec<&'static str> {
    let fence = format!("\n```{language}\n");
    let blocks = README.split(&fence).skip(1);
    blocks
        .map(|block| block.split("```").next().unwrap_or(block))
        .collect()
}

#[test]
fn stand_in_the_examples() {
    for (language, example) in [("rust", RUST), ("c", C)] {
        let quotes = quotes(language);
        assert_eq!(quotes.len(), 1);
        for quote in quotes {
            assert!(quote.lines().count() > 10);
            assert!(example.contains(quote), "{quote}");
        }
    }
}

/// The text with one blank for all between two words.
fn plain(text: &str) -> String {
    text.split_whitespace().collect::<Vec<_>>().join(" ")
}

/// The legend's quotes, each with the file of definitions named behind it:
/// `` `quote` (`File`) ``.
fn quotes_of_definitions() -> Vec<(String, String)> {
    let legend = plain(include_str!("../../../docs/LEGEND.md"));
    let pieces: Vec<&str> = legend.split('`').collect();
    let quoted = |three: &[&str]| match three {
        [quote, " (", file] => Some((quote.to_string(), file.to_string())),
        _ => None,
    };
    pieces.windows(3).filter_map(quoted).collect()
}

#[test]
fn stand_in_the_definitions() {
    let quotes = quotes_of_definitions();
    assert!(quotes.len() > 30);
    for (quote, file) in quotes {
        let folder = concat!(env!("CARGO_MANIFEST_DIR"), "/../../crates/annex/specs");
        let definitions = std::fs::read_to_string(format!("{folder}/{file}.antt"));
        let definitions = definitions.unwrap_or_else(|error| panic!("{file}: {error}"));
        assert!(plain(&definitions).contains(&quote), "{quote} in {file}");
    }
}
