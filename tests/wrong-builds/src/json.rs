//! JSON, as far as the prover writes it of names.

use std::collections::BTreeMap;
use std::iter::Peekable;
use std::str::Chars;

#[derive(Clone, Debug, PartialEq)]
pub enum Json {
    Object(BTreeMap<String, Json>),
    List(Vec<Json>),
    Text(String),
    /// A number, a truth value or null, by its letters.
    Word(String),
}

impl Json {
    pub fn read(text: &str) -> Option<Json> {
        let mut rest = text.chars().peekable();
        let found = value(&mut rest)?;
        skip(&mut rest);
        rest.next().is_none().then_some(found)
    }

    pub fn get(&self, name: &str) -> Option<&Json> {
        match self {
            Json::Object(fields) => fields.get(name),
            _ => None,
        }
    }

    pub fn list(&self) -> Option<&[Json]> {
        match self {
            Json::List(items) => Some(items),
            _ => None,
        }
    }

    pub fn text(&self) -> Option<&str> {
        match self {
            Json::Text(text) => Some(text),
            _ => None,
        }
    }
}

type Rest<'a> = Peekable<Chars<'a>>;

fn skip(rest: &mut Rest) {
    while rest.next_if(|c| c.is_whitespace()).is_some() {}
}

fn value(rest: &mut Rest) -> Option<Json> {
    skip(rest);
    match rest.peek()? {
        '{' => {
            let named = |rest: &mut Rest| {
                skip(rest);
                let name = text(rest)?;
                skip(rest);
                rest.next_if_eq(&':')?;
                Some((name, value(rest)?))
            };
            items(rest, '}', named).map(|fields| Json::Object(fields.into_iter().collect()))
        }
        '[' => items(rest, ']', value).map(Json::List),
        '"' => text(rest).map(Json::Text),
        _ => {
            let mut word = String::new();
            while let Some(c) = rest.next_if(|c| c.is_alphanumeric() || "+-.".contains(*c)) {
                word.push(c);
            }
            (!word.is_empty()).then_some(Json::Word(word))
        }
    }
}

/// What stands between two brackets, parted by commas.
fn items<T>(rest: &mut Rest, end: char, one: impl Fn(&mut Rest) -> Option<T>) -> Option<Vec<T>> {
    rest.next();
    let mut found = Vec::new();
    loop {
        skip(rest);
        if found.is_empty() && rest.next_if_eq(&end).is_some() {
            return Some(found);
        }
        found.push(one(rest)?);
        skip(rest);
        match rest.next()? {
            ',' => {}
            c if c == end => return Some(found),
            _ => return None,
        }
    }
}

fn text(rest: &mut Rest) -> Option<String> {
    rest.next_if_eq(&'"')?;
    let mut found = String::new();
    loop {
        match rest.next()? {
            '"' => return Some(found),
            '\\' => found.push(match rest.next()? {
                'n' => '\n',
                't' => '\t',
                'r' => '\r',
                'u' => {
                    let digits: String = rest.by_ref().take(4).collect();
                    char::from_u32(u32::from_str_radix(&digits, 16).ok()?)?
                }
                c => c,
            }),
            c => found.push(c),
        }
    }
}

#[cfg(test)]
mod tests {
    use super::*;

    #[test]
    fn values_are_read_whole() {
        let found = Json::read(r#" {"a": ["x\"\u0041", null, -1.5], "b": {}, "c": []} "#).unwrap();
        let items = found.get("a").unwrap().list().unwrap();
        assert_eq!(items[0].text(), Some("x\"A"));
        assert_eq!(items[1..], [Json::Word("null".into()), Json::Word("-1.5".into())]);
        assert_eq!(found.get("b"), Some(&Json::Object(BTreeMap::new())));
        assert_eq!(found.get("c").unwrap().list(), Some(&[][..]));
        assert_eq!(found.get("d"), None);
    }

    #[test]
    fn half_a_value_is_none() {
        for text in ["", "{", r#"{"a"}"#, "[1", "[1,]", r#""a"#, "[] []", "[1 2]"] {
            assert_eq!(Json::read(text), None, "{text}");
        }
    }
}
