//! Answers about building and resolving.

use input::{Answer, BuiltRule, TemplateTree};
use library::rules::{BuiltRules, ResolvedElement};

/// Building; nothing if the answer is none of it.
pub fn built_rules(answer: &Answer) -> Option<BuiltRules> {
    match *answer {
        Answer::Refused(refusal) => Some(BuiltRules { refusal, ..BuiltRules::default() }),
        Answer::Built { rules, asked } => {
            let rules = rules as usize;
            let none = BuiltRules { rules, ..BuiltRules::default() };
            Some(asked.map_or(none, |rule| BuiltRules {
                found: 1,
                pair: rule.pair as usize,
                form: rule.form as usize,
                template: rule.template as u32,
                ..none
            }))
        }
        _ => None,
    }
}

/// The library's answer of building. Where a field is not what the answer has it to be, the whole
/// struct is the error.
pub fn built_answer(built: BuiltRules) -> Result<Answer, BuiltRules> {
    let answer = if built.refusal != 0 {
        Answer::Refused(built.refusal)
    } else {
        let template = match built.template {
            0 => TemplateTree::None,
            1 => TemplateTree::Own,
            _ => TemplateTree::StandIn,
        };
        let (pair, form) = (built.pair as u32, built.form as u32);
        let asked = (built.found != 0).then_some(BuiltRule { pair, form, template });
        Answer::Built { rules: built.rules as u32, asked }
    };
    if built_rules(&answer) == Some(built) { Ok(answer) } else { Err(built) }
}

/// Resolving; nothing if the answer is none of it.
pub fn resolved_element(answer: &Answer) -> Option<ResolvedElement> {
    let mut of = ResolvedElement::default();
    match *answer {
        Answer::Refused(refusal) => of.refusal = refusal,
        Answer::Resolved(None) => {}
        Answer::Resolved(Some(element)) => {
            of.found = 1;
            (of.resolved, of.resolution) = flagged(element.resolution);
            (of.call, (of.function, (of.typed, of.qualifier_type))) =
                flagged(element.call.map(|(function, kind)| (function, flagged(kind))));
            of.contains_self = u32::from(element.contains_self);
        }
        _ => return None,
    }
    Some(of)
}

/// The library's answer of resolving. Where a field is not what the answer has it to be, the whole
/// struct is the error.
pub fn resolved_answer(resolved: ResolvedElement) -> Result<Answer, ResolvedElement> {
    let answer = if resolved.refusal != 0 {
        Answer::Refused(resolved.refusal)
    } else {
        let kind = (resolved.typed != 0).then_some(resolved.qualifier_type);
        Answer::Resolved((resolved.found != 0).then_some(input::ResolvedElement {
            resolution: (resolved.resolved != 0).then_some(resolved.resolution),
            call: (resolved.call != 0).then_some((resolved.function, kind)),
            contains_self: resolved.contains_self != 0,
        }))
    };
    if resolved_element(&answer) == Some(resolved) { Ok(answer) } else { Err(resolved) }
}

/// A value that may be absent as a flag and a value, both 0 where it is.
fn flagged<T: Default>(value: Option<T>) -> (u32, T) {
    (u32::from(value.is_some()), value.unwrap_or_default())
}

#[cfg(test)]
mod tests {
    use super::*;

    /// Each field of a struct by itself, and what is to become of another value in it.
    #[test]
    fn no_field_is_ignored() {
        let refused = BuiltRules { refusal: 17, ..BuiltRules::default() };
        let none = BuiltRules { rules: 2, ..BuiltRules::default() };
        let found = BuiltRules { rules: 2, found: 1, pair: 1, form: 4, template: 2, ..none };
        for good in [refused, none, found] {
            assert!(built_answer(good).is_ok(), "{good:?}");
        }
        for wrong in [
            BuiltRules { rules: 1, ..refused },
            BuiltRules { template: 1, ..refused },
            BuiltRules { pair: 1, ..none },
            BuiltRules { form: 1, ..none },
            BuiltRules { template: 1, ..none },
            BuiltRules { rules: 1 << 32, ..none },
            BuiltRules { found: 2, ..found },
            BuiltRules { template: 3, ..found },
            BuiltRules { pair: 1 << 32, ..found },
        ] {
            assert_eq!(built_answer(wrong), Err(wrong));
        }
    }

    #[test]
    fn no_field_of_an_element_is_ignored() {
        let refused = ResolvedElement { refusal: 22, ..ResolvedElement::default() };
        let none = ResolvedElement::default();
        let bare = ResolvedElement { found: 1, ..none };
        let path = ResolvedElement { resolved: 1, resolution: 7, contains_self: 1, ..bare };
        let call = ResolvedElement { call: 1, function: 7, ..bare };
        let typed = ResolvedElement { typed: 1, qualifier_type: 9, ..call };
        for good in [refused, none, bare, path, call, typed] {
            assert!(resolved_answer(good).is_ok(), "{good:?}");
        }
        for wrong in [
            ResolvedElement { contains_self: 1, ..refused },
            ResolvedElement { contains_self: 1, ..none },
            ResolvedElement { resolution: 1, ..none },
            ResolvedElement { found: 2, ..bare },
            ResolvedElement { resolution: 1, ..bare },
            ResolvedElement { function: 1, ..bare },
            ResolvedElement { typed: 1, ..bare },
            ResolvedElement { resolved: 2, ..path },
            ResolvedElement { contains_self: 2, ..path },
            ResolvedElement { qualifier_type: 1, ..call },
            ResolvedElement { call: 2, ..call },
            ResolvedElement { typed: 2, ..typed },
        ] {
            assert_eq!(resolved_answer(wrong), Err(wrong));
        }
    }
}
