//! Trees with their facts, each checked by itself.

use input::{File, RuleSide, TreeCheck};

mod exported {
    unsafe extern "C" {
        pub fn ssr_check_file(
            tree: *const u32,
            tree_length: usize,
            text: *const u8,
            text_length: usize,
            facts: *const u32,
            facts_length: usize,
        ) -> u32;
        pub fn ssr_check_rule_tree(
            list_given: u32,
            list: *const u32,
            list_length: usize,
            list_text: *const u8,
            list_text_length: usize,
            side: u32,
            tree: *const u32,
            tree_length: usize,
            code: *const u8,
            code_length: usize,
            facts: *const u32,
            facts_length: usize,
            fact_text: *const u8,
            fact_text_length: usize,
        ) -> u32;
    }
}

/// The file's tree or a rule's with its facts: the refusal, or 0.
pub fn check_tree(check: &TreeCheck) -> u32 {
    match &check.rule {
        None => check_file(&check.tree),
        Some(rule) => check_rule_tree(&check.tree, rule),
    }
}

/// The file's tree with its facts: the refusal, 18 to 21, or 0.
pub fn check_file(file: &File) -> u32 {
    let File { tree, text, facts } = file;
    // SAFETY: all pointers are to as many elements as are said, which outlive the call. The function
    // has no other conditions.
    unsafe {
        exported::ssr_check_file(
            tree.as_ptr(),
            tree.len(),
            text.as_ptr(),
            text.len(),
            facts.as_ptr(),
            facts.len(),
        )
    }
}

/// A rule's tree with its facts, the text being its code: the refusal, 1 to 13 or 18 to 21, or 0.
pub fn check_rule_tree(tree: &File, rule: &RuleSide) -> u32 {
    let File { tree, text, facts } = tree;
    let RuleSide { given, list, side, fact_text } = rule;
    // SAFETY: all pointers are to as many elements as are said, which outlive the call. The function
    // has no other conditions.
    unsafe {
        exported::ssr_check_rule_tree(
            *given,
            list.words.as_ptr(),
            list.words.len(),
            list.text.as_ptr(),
            list.text.len(),
            *side,
            tree.as_ptr(),
            tree.len(),
            text.as_ptr(),
            text.len(),
            facts.as_ptr(),
            facts.len(),
            fact_text.as_ptr(),
            fact_text.len(),
        )
    }
}
