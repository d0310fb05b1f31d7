//! include/pay.h, read as far as the reference is held to it: the operations
//! and the numbers that have names.

/// A function of the header. Words are parted by single blanks.
#[derive(Debug, PartialEq, Eq)]
pub struct Prototype {
    pub returns: String,
    pub name: String,
    pub parameters: Vec<String>,
}

/// The text without comments and without lines for the preprocessor.
fn bare(text: &str) -> String {
    let mut code = String::new();
    let mut rest = text;
    while let Some((before, comment)) = rest.split_once("/*") {
        code += before;
        rest = comment.split_once("*/").map_or("", |(_, behind)| behind);
    }
    code += rest;
    let lines = code.lines().filter(|line| !line.trim_start().starts_with('#'));
    lines.flat_map(|line| [line, "\n"]).collect()
}

/// The words of a text with single blanks between them.
fn words(text: &str) -> String {
    text.split_whitespace().collect::<Vec<_>>().join(" ")
}

/// The functions in their order.
pub fn prototypes(text: &str) -> Vec<Prototype> {
    let prototype = |statement: &str| {
        let (head, behind) = statement.rsplit(['{', '}']).next()?.split_once('(')?;
        let (returns, name) = head.trim().rsplit_once(char::is_whitespace)?;
        let parameters = behind.trim_end().strip_suffix(')')?.split(',').map(words);
        let parameters = parameters.filter(|parameter| parameter != "void").collect();
        Some(Prototype { returns: words(returns), name: name.into(), parameters })
    };
    bare(text).split(';').filter_map(prototype).collect()
}

/// The names of an `enum` with their numbers. One without a number of its own
/// has one more than the name before it.
fn numbered(body: &str) -> Vec<(String, u64)> {
    let mut next = 0;
    let entries = body.split(',').map(str::trim).filter(|entry| !entry.is_empty());
    let numbered = entries.map(|entry| {
        let (name, number) = entry.split_once('=').unwrap_or((entry, ""));
        let number = match number.trim() {
            "" => next,
            number => number.parse().expect("a number"),
        };
        next = number + 1;
        (name.trim().to_string(), number)
    });
    numbered.collect()
}

/// The names of each `enum` with their numbers, in their order.
pub fn enumerations(text: &str) -> Vec<Vec<(String, u64)>> {
    let text = bare(text);
    let bodies = text.split("enum").skip(1).filter_map(|behind| {
        let (_, body) = behind.split_once('{')?;
        body.split_once('}').map(|(body, _)| body)
    });
    bodies.map(numbered).collect()
}

#[cfg(test)]
mod tests {
    use super::*;

    const TEXT: &str = "/* one; two( */\n#define X (1)\nextern \"C\" {\nenum { A = 1, /* B = 2, */ C = 3, D };\n\
        void f(uint64_t a,\n  const uint8_t *b); /* g(); */\nuint64_t h(void);\n}\n";

    #[test]
    fn functions() {
        let f = ["uint64_t a".into(), "const uint8_t *b".into()].into();
        let f = Prototype { returns: "void".into(), name: "f".into(), parameters: f };
        let h = Prototype { returns: "uint64_t".into(), name: "h".into(), parameters: vec![] };
        assert_eq!(prototypes(TEXT), [f, h]);
    }

    #[test]
    fn numbers() {
        assert_eq!(enumerations(TEXT), [[("A".into(), 1), ("C".into(), 3), ("D".into(), 4)]]);
    }
}
