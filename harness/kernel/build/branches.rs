//! Puts a counter at the head of each block of a function body, and one before
//! each `if` that stands as a statement, so that it can be seen how often the
//! condition was tried and how often it held.

/// The text with counters; `blocks` gets one row `(line, before, source line)` each.
pub fn counted(text: &str, blocks: &mut String) -> String {
    let mut out = String::new();
    let mut number = 0;
    let mut in_comment = false;
    let mut in_functions = false;
    let mut last = String::new();
    for (index, line) in text.lines().enumerate() {
        let code = line.trim();
        if line.starts_with("fn update_runnable") {
            in_functions = true;
        }
        if line.starts_with("struct WorkStealingCandidate") {
            in_functions = false;
        }
        if code.starts_with("/*") {
            in_comment = true;
        }
        let plain = in_functions && !in_comment && !code.starts_with("//");
        let mut mark = |out: &mut String, before: bool| {
            *blocks += &format!("({}, {before}, {code:?}),\n", index + 1);
            *out += &format!("crate::branches::reach({number});\n");
            number += 1;
        };
        if plain && code.starts_with("if ") && statement_follows(&last) {
            mark(&mut out, true);
        }
        out += line;
        out += "\n";
        if plain && opens_block(line) {
            mark(&mut out, false);
        }
        if code.contains("*/") {
            in_comment = false;
        } else if !code.is_empty() && !code.starts_with("//") && !in_comment {
            last = code.to_string();
        }
    }
    out
}

fn statement_follows(last: &str) -> bool {
    last.ends_with(';') || last.ends_with('{') || last.ends_with('}')
}

/// A line that ends by opening a block of statements, not a literal, pattern or match.
fn opens_block(line: &str) -> bool {
    let code = line.trim();
    if !code.ends_with('{') || code.contains("match ") || line.starts_with("enum ") {
        return false;
    }
    code.starts_with("if ")
        || (code.starts_with("for ") && code.contains(" in "))
        || code.starts_with("} else")
        || code.starts_with("else")
        || code.ends_with("else {")
        || code.ends_with("| {")
        || code.ends_with("=> {")
        || code.starts_with("% if")
        || code == "{"
        || code == ") {"
        || (code.contains("fn ") && code.ends_with(") {"))
        || (code.starts_with(") ->") && line.starts_with(')'))
}

pub fn table(blocks: &str) -> String {
    format!("pub const BLOCKS: &[(u32, bool, &str)] = &[\n{blocks}];\n")
}
