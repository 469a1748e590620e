//! The part of the database that the crate names and asks nothing of.

pub trait SourceDatabase {}

#[derive(Clone, Copy)]
pub struct CrateId;

impl From<CrateId> for hir::Crate {
    fn from(_: CrateId) -> hir::Crate {
        hir::Crate
    }
}

/// The one crate, for a display that is never shown.
pub fn all_crates<DB: ?Sized>(_db: &DB) -> &'static [CrateId] {
    &[CrateId]
}
