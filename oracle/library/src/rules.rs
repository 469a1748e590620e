//! Building rules and resolving them.

use input::Rules;

/// The answer of building. What is not used is 0.
#[repr(C)]
#[derive(Clone, Copy, Debug, Default, PartialEq, Eq)]
pub struct BuiltRules {
    /// 1 to 15, 17 to 20, or 0.
    pub refusal: u32,
    /// How many rules are left.
    pub rules: usize,
    /// 1 if the rule asked for is there.
    pub found: u32,
    /// The number of its pair.
    pub pair: usize,
    /// Its form: 0 expression, 1 type, 2 item, 3 pattern, 4 statement.
    pub form: usize,
    /// 0 no template was given, 1 its own tree, 2 the statement's tree.
    pub template: u32,
}

/// The answer of resolving. What is not used is 0.
#[repr(C)]
#[derive(Clone, Copy, Debug, Default, PartialEq, Eq)]
pub struct ResolvedElement {
    /// 1 to 15, 17 to 22, or 0.
    pub refusal: u32,
    /// 1 if rule, side and element are there.
    pub found: u32,
    /// 1 if the element is a resolved path.
    pub resolved: u32,
    /// What that path resolves to.
    pub resolution: u32,
    /// 1 if the element is a call that UFCS may match.
    pub call: u32,
    /// That call's function.
    pub function: u32,
    /// 1 if that call has a qualifier type.
    pub typed: u32,
    /// That type.
    pub qualifier_type: u32,
    /// 1 if the side's tree has a `self`.
    pub contains_self: u32,
}

mod exported {
    use super::{BuiltRules, ResolvedElement};

    unsafe extern "C" {
        pub fn ssr_build_rules(
            directory: *const u32,
            directory_length: usize,
            words: *const u32,
            words_length: usize,
            bytes: *const u8,
            bytes_length: usize,
            rule: usize,
        ) -> BuiltRules;
        pub fn ssr_resolve(
            directory: *const u32,
            directory_length: usize,
            words: *const u32,
            words_length: usize,
            bytes: *const u8,
            bytes_length: usize,
            fact_text: *const u8,
            fact_text_length: usize,
            rule: usize,
            side: u32,
            element: usize,
        ) -> ResolvedElement;
    }
}

/// Building, with the number of the rule asked for.
pub fn build_rules(rules: &Rules, rule: usize) -> BuiltRules {
    let Rules { directory, words, bytes, .. } = rules;
    // SAFETY: all pointers are to as many elements as are said, which outlive the call. The function
    // has no other conditions, and its result holds numbers only.
    unsafe {
        exported::ssr_build_rules(
            directory.as_ptr(),
            directory.len(),
            words.as_ptr(),
            words.len(),
            bytes.as_ptr(),
            bytes.len(),
            rule,
        )
    }
}

/// Resolving, with the rule, side (0 pattern, 1 template) and element asked for.
pub fn resolve(rules: &Rules, rule: usize, side: u32, element: usize) -> ResolvedElement {
    let Rules { directory, words, bytes, fact_text } = rules;
    // SAFETY: all pointers are to as many elements as are said, which outlive the call. The function
    // has no other conditions, and its result holds numbers only.
    unsafe {
        exported::ssr_resolve(
            directory.as_ptr(),
            directory.len(),
            words.as_ptr(),
            words.len(),
            bytes.as_ptr(),
            bytes.len(),
            fact_text.as_ptr(),
            fact_text.len(),
            rule,
            side,
            element,
        )
    }
}
