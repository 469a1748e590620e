//! What programs are given on the command line.

use crate::Class;

pub fn named(name: &str) -> Result<Class, String> {
    Class::named(name).ok_or(format!("no class `{name}`"))
}

pub fn number(text: &str) -> Result<u64, String> {
    text.parse().map_err(|_| format!("`{text}` is no number"))
}
