//! The first stage wherever rules are given: every list of every pair, 1 to 15.

use crate::lowest::Lowest;
use crate::tokens::{ReadList, read_tokens};
use input::{Pair, TokenList};

/// The lists of a pair that was read and checked.
pub struct PairLists<'a> {
    pub pattern: ReadList<'a>,
    pub template: Option<ReadList<'a>>,
}

/// Reads and checks every pair; the lowest number of all lists and pairs.
pub fn read_pairs(pairs: &[Pair]) -> Result<Vec<PairLists<'_>>, u32> {
    let mut lowest = Lowest::default();
    let mut read = Vec::new();
    for pair in pairs {
        let template = pair.has_template.then_some(&pair.template.list);
        read.extend(lowest.keep(read_pair(&pair.pattern.list, template)));
    }
    lowest.end().map(|()| read)
}

/// Reads and checks one pair.
pub fn read_pair<'a>(
    pattern: &'a TokenList,
    template: Option<&'a TokenList>,
) -> Result<PairLists<'a>, u32> {
    let mut lowest = Lowest::default();
    let pattern = lowest.keep(read_tokens(pattern));
    let template = template.map(|list| lowest.keep(read_tokens(list)));
    lowest.end()?;
    let lists = PairLists {
        pattern: pattern.expect("no list refused"),
        template: template.map(|list| list.expect("no list refused")),
    };
    if let Some(template) = &lists.template {
        check_template(&lists.pattern, template)?;
    }
    Ok(lists)
}

fn check_template(pattern: &ReadList, template: &ReadList) -> Result<(), u32> {
    if template.placeholders.iter().any(|p| !p.nots.is_empty()) {
        return Err(14);
    }
    let names = pattern.names();
    if template.names().iter().any(|name| !names.contains(name)) {
        return Err(15);
    }
    Ok(())
}
