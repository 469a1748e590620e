//! Types by number, with the autoderef steps of sort 3.

use std::fmt;
use std::marker::PhantomData;

use syntax::SyntaxNode;

use crate::{AssocItem, SemanticsScope, VisibleTraits};

/// A type: the one that a qualifier names, or a step of an expression's type, whose later steps are
/// looked up when they are asked for.
#[derive(Clone, Debug)]
pub struct Type<'db> {
    number: u32,
    step: Option<(SyntaxNode, u32)>,
    db: PhantomData<&'db ()>,
}

impl<'db> Type<'db> {
    pub(crate) fn of_qualifier(number: u32) -> Type<'db> {
        Type { number, step: None, db: PhantomData }
    }

    /// Step 0 at an expression of the file; none if it is absent.
    pub(crate) fn of_expr(expr: &SyntaxNode) -> Option<Type<'db>> {
        Type::of_step(expr, 0)
    }

    fn of_step(expr: &SyntaxNode, step: u32) -> Option<Type<'db>> {
        let [_, number, _] = expr.tree().fact_at(3, expr.element(), step)?;
        Some(Type { number, step: Some((expr.clone(), step)), db: PhantomData })
    }

    pub fn number(&self) -> u32 {
        self.number
    }

    /// The type, and those that it dereferences to in turn.
    pub fn autoderef<DB: ?Sized>(
        &self,
        _db: &DB,
    ) -> impl Iterator<Item = Type<'db>> + use<'db, DB> {
        std::iter::successors(Some(self.clone()), |ty| {
            let (expr, step) = ty.step.as_ref()?;
            Type::of_step(expr, step + 1)
        })
    }

    /// Asks for a name on the type. No fact has candidates.
    pub fn iterate_path_candidates<DB: ?Sized, T>(
        &self,
        _db: &DB,
        _scope: &SemanticsScope<'db>,
        _traits: &VisibleTraits,
        _name: Option<()>,
        _callback: impl FnMut(AssocItem) -> Option<T>,
    ) -> Option<T> {
        None
    }
}

impl PartialEq for Type<'_> {
    fn eq(&self, other: &Self) -> bool {
        self.number() == other.number()
    }
}

/// The type of an expression.
pub struct TypeInfo<'db> {
    pub original: Type<'db>,
}

/// There is one crate, named only for a display that document 01 leaves out.
#[derive(Clone, Copy)]
pub struct Crate;

impl Crate {
    pub fn to_display_target<DB: ?Sized>(self, _db: &DB) -> DisplayTarget {
        DisplayTarget
    }
}

#[derive(Clone, Copy)]
pub struct DisplayTarget;

/// Types are shown by number, in reasons that document 01 leaves out.
pub trait HirDisplay {
    fn display<DB: ?Sized>(&self, db: &DB, target: DisplayTarget) -> impl fmt::Display;
}

impl HirDisplay for Type<'_> {
    fn display<DB: ?Sized>(&self, _db: &DB, _target: DisplayTarget) -> impl fmt::Display {
        self.number()
    }
}
