//! A case of the corpus: what is handed in, and the answers of a real build.

use input::edits::{self, Edit};
use input::{Binding, File, Pair, Parses, RuleTree, Side, TokenList};

use crate::json::Value;

pub struct Case {
    pub id: String,
    pub pairs: Vec<Pair>,
    pub fact_text: Vec<u8>,
    pub file: File,
    pub parses: Parses,
    pub restrict: Option<(u32, u32)>,
    /// Pair and form of the rules left, where building and resolving went well.
    pub rules: Option<Vec<(u32, u32)>>,
    pub matches: Option<Vec<CaseMatch>>,
    pub answer: CaseAnswer,
}

/// A match: node, rule, bindings in pattern order, text of the noted comments.
#[derive(Debug, PartialEq, Eq)]
pub struct CaseMatch {
    pub node: u32,
    pub rule: u32,
    pub bindings: Vec<Option<Binding>>,
    pub comments: String,
}

pub enum CaseAnswer {
    Refused(u32),
    /// The edit list, as its bytes and as edits.
    Edits(Vec<u8>, Vec<Edit>),
}

type Read<T> = Result<T, String>;

pub fn read_case(value: &Value) -> Read<Case> {
    Ok(Case {
        id: text(member(value, "id")?)?,
        pairs: list(member(value, "pairs")?, pair)?,
        fact_text: text(member(value, "fact_text")?)?.into_bytes(),
        file: File {
            tree: list(member(value, "tree")?, number)?,
            text: text(member(value, "text")?)?.into_bytes(),
            facts: list(member(value, "facts")?, number)?,
        },
        parses: Parses {
            words: list(member(value, "parses")?, number)?,
            text: text(member(value, "parse_text")?)?.into_bytes(),
        },
        restrict: value.get("restrict").map(two).transpose()?,
        rules: value.get("rules").map(|rules| list(rules, two)).transpose()?,
        matches: value.get("matches").map(|matches| list(matches, case_match)).transpose()?,
        answer: answer(value)?,
    })
}

fn member<'a>(value: &'a Value, name: &str) -> Read<&'a Value> {
    value.get(name).ok_or_else(|| format!("member `{name}` is missing"))
}

fn text(value: &Value) -> Read<String> {
    match value {
        Value::Text(text) => Ok(text.clone()),
        _ => Err("a string is missing".to_owned()),
    }
}

fn number(value: &Value) -> Read<u32> {
    match value {
        Value::Number(number) => u32::try_from(*number).map_err(|_| "no 32-bit word".to_owned()),
        _ => Err("a number is missing".to_owned()),
    }
}

fn list<T>(value: &Value, item: impl Fn(&Value) -> Read<T>) -> Read<Vec<T>> {
    match value {
        Value::List(values) => values.iter().map(item).collect(),
        _ => Err("a list is missing".to_owned()),
    }
}

fn two(value: &Value) -> Read<(u32, u32)> {
    match list(value, number)?.as_slice() {
        [first, second] => Ok((*first, *second)),
        _ => Err("two numbers are missing".to_owned()),
    }
}

fn pair(value: &Value) -> Read<Pair> {
    let template = value.get("template");
    Ok(Pair {
        pattern: side(member(value, "pattern")?)?,
        has_template: template.is_some(),
        template: template.map(side).transpose()?.unwrap_or_default(),
    })
}

fn side(value: &Value) -> Read<Side> {
    let trees = list(member(value, "trees")?, rule_tree)?;
    Ok(Side {
        list: TokenList {
            words: list(member(value, "tokens")?, number)?,
            text: text(member(value, "text")?)?.into_bytes(),
        },
        code: text(member(value, "code")?)?.into_bytes(),
        trees: trees.try_into().map_err(|_| "five trees are missing".to_owned())?,
    })
}

fn rule_tree(value: &Value) -> Read<RuleTree> {
    if *value == Value::Null {
        return Ok(RuleTree::default());
    }
    Ok(RuleTree {
        words: list(member(value, "tree")?, number)?,
        facts: list(member(value, "facts")?, number)?,
    })
}

fn case_match(value: &Value) -> Read<CaseMatch> {
    let Value::List(parts) = value else { return Err("a match is missing".to_owned()) };
    let [node, rule, bindings, comments] = parts.as_slice() else {
        return Err("a match has four parts".to_owned());
    };
    Ok(CaseMatch {
        node: number(node)?,
        rule: number(rule)?,
        bindings: list(bindings, binding)?,
        comments: text(comments)?,
    })
}

fn binding(value: &Value) -> Read<Option<Binding>> {
    if *value == Value::Null {
        return Ok(None);
    }
    match list(value, number)?.as_slice() {
        &[start, end, stars, self_kind] => Ok(Some(Binding { start, end, stars, self_kind })),
        _ => Err("a binding has four numbers".to_owned()),
    }
}

fn answer(value: &Value) -> Read<CaseAnswer> {
    if let Some(refused) = value.get("refused") {
        return Ok(CaseAnswer::Refused(number(refused)?));
    }
    let bytes = hexadecimal(&text(member(value, "edit_list")?)?)?;
    let edits = edits::read(&bytes)?;
    Ok(CaseAnswer::Edits(bytes, edits))
}

fn hexadecimal(text: &str) -> Read<Vec<u8>> {
    let digit = |digit: u8| char::from(digit).to_digit(16).map(|digit| digit as u8);
    let byte = |two: &[u8]| match two {
        [high, low] => Some(digit(*high)? * 16 + digit(*low)?),
        _ => None,
    };
    let bytes: Option<Vec<u8>> = text.as_bytes().chunks(2).map(byte).collect();
    bytes.ok_or_else(|| "the edit list is not hexadecimal".to_owned())
}
