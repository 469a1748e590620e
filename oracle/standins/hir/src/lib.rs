//! Stand-in for rust-analyzer's `hir`: name resolution and types, answered by document 01's facts.

mod resolution;
mod semantics;
mod types;

use std::rc::Rc;

use syntax::tree::Tree;

pub use resolution::{
    Adt, AsAssocItem, AssocItem, Const, FindPathConfig, Function, ModPath, Module, ModuleDef, Name,
    PathResolution, SelfParam, TypeAlias,
};
pub use semantics::{
    Callable, EditionedFileId, FilePosition, FileRange, InFile, Semantics, SemanticsScope,
    VisibleTraits,
};
pub use types::{Crate, DisplayTarget, HirDisplay, Type, TypeInfo};

/// What the database must know: the trees that path texts are looked up in.
pub trait HirDatabase {
    fn template_tree(&self, id: u32) -> Option<&Rc<Tree>>;
}

pub fn attach_db<T>(_db: &dyn HirDatabase, run: impl FnOnce() -> T) -> T {
    run()
}
