//! The names that generated code uses, and what facts say of them.

/// What a name stands for. A path means what its last name means.
pub struct Item {
    pub name: &'static str,
    /// Resolution of a path, function of a method call.
    pub number: u32,
    /// Flags of a pattern or template path: 1 usable, 2 a definition, 4 an associated function.
    pub flags: u32,
    /// Whether a method of this name takes self, and how (0 owned, 1 `&`, 2 `&mut`).
    pub takes_self: u32,
    pub self_kind: u32,
}

const fn item(
    name: &'static str,
    number: u32,
    flags: u32,
    takes_self: u32,
    self_kind: u32,
) -> Item {
    Item { name, number, flags, takes_self, self_kind }
}

/// Free functions, types, a module, locals, associated functions and a constant.
pub const ITEMS: [Item; 14] = [
    item("f", 1, 3, 0, 0),
    item("g", 2, 3, 0, 0),
    item("old", 3, 3, 0, 0),
    item("S", 10, 3, 0, 0),
    item("T", 11, 3, 0, 0),
    item("m", 12, 3, 0, 0),
    item("x", 20, 1, 0, 0),
    item("y", 21, 1, 0, 0),
    item("z", 22, 1, 0, 0),
    item("r", 30, 7, 1, 1),
    item("w", 31, 7, 1, 2),
    item("o", 32, 7, 1, 0),
    item("n", 33, 6, 0, 0),
    item("C", 34, 2, 0, 0),
];

pub const FUNCTIONS: [&str; 3] = ["f", "g", "old"];
pub const TYPES: [&str; 2] = ["S", "T"];
pub const LOCALS: [&str; 3] = ["x", "y", "z"];
pub const ASSOCIATED: [&str; 5] = ["r", "w", "o", "n", "C"];
pub const METHODS: [&str; 4] = ["r", "w", "o", "n"];

/// The number of the type that `S` or `T` names.
pub fn type_number(name: &[u8]) -> Option<u32> {
    match name {
        b"S" => Some(9),
        b"T" => Some(8),
        _ => None,
    }
}

pub fn find(name: &[u8]) -> Option<&'static Item> {
    ITEMS.iter().find(|item| item.name.as_bytes() == name)
}
