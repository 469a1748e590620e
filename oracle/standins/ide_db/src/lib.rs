//! Stand-in for rust-analyzer's `ide_db`: hash maps, text edits and the database.

pub mod base_db;
pub mod text_edit;

use std::rc::Rc;

use syntax::tree::Tree;

pub use syntax::hash::{FxHashMap, FxHashSet};

/// The database: the trees that path texts are looked up in. All else stands in the trees.
#[derive(Default)]
pub struct RootDatabase {
    template_trees: FxHashMap<u32, Rc<Tree>>,
}

impl RootDatabase {
    pub fn add_template_tree(&mut self, tree: Rc<Tree>) {
        self.template_trees.insert(tree.id(), tree);
    }
}

impl hir::HirDatabase for RootDatabase {
    fn template_tree(&self, id: u32) -> Option<&Rc<Tree>> {
        self.template_trees.get(&id)
    }
}

impl base_db::SourceDatabase for RootDatabase {}
