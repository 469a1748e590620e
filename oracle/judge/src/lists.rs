//! Token lists, asked of the crate.

use crate::refusal_as_answer;
use input::{Answer, TokenList};
use ssr::Stopped;

pub(crate) fn read_tokens(list: &TokenList) -> Result<Answer, Stopped> {
    ssr::read_tokens(list).map(Answer::Placeholders).or_else(refusal_as_answer)
}

pub(crate) fn check_pair(
    pattern: &TokenList,
    template: Option<&TokenList>,
) -> Result<Answer, Stopped> {
    ssr::check_pair(pattern, template).map(|()| Answer::Valid).or_else(refusal_as_answer)
}

pub(crate) fn raw_code(list: &TokenList) -> Result<Answer, Stopped> {
    ssr::raw_code(list).map(|code| Answer::RawCode(code.len())).or_else(refusal_as_answer)
}
