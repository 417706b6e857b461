//! The page that the tables go to. What stands around them is written by hand.

const FROM: &str = "<!-- from here on written by bench/run -->\n";
const TO: &str = "<!-- up to here -->\n";

/// The page with other tables between its marks.
pub fn with(page: &str, tables: &str) -> String {
    let (before, rest) = page
        .split_once(FROM)
        .expect("the page marks where the tables begin");
    let (_, after) = rest
        .split_once(TO)
        .expect("the page marks where the tables end");
    format!("{before}{FROM}\n{tables}\n{TO}{after}")
}
