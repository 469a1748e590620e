//! What paths resolve to. A fact of sort 1 has three flags; this is the resolution that is made of
//! them, so that the crate's own tests find what the flags say:
//!
//! | flags | usable | definition | associated function | resolution |
//! |---|---|---|---|---|
//! | 1 | yes | no | no | `Other`, e.g. a local |
//! | 3 | yes | yes | no | `Def(Function)`, a free function |
//! | 7 | yes | yes | yes | `Def(Function)`, associated, with a self parameter |
//! | 2 | no | yes | no | `Def(Const)`, associated |
//! | 6 | no | yes | yes | `Def(Function)`, associated, without a self parameter |
//! | 0 | no | no | no | as 2 |
//! | 4 | no | no | yes | as 6 |
//! | 5 | yes | no | yes | none: it is not fed |
//!
//! No resolution of the crate has the flags 0, 4 or 5. Of a path that is not usable the crate asks
//! nothing else, so 0 and 4 are fed as 2 and 6. Equality compares the numbers alone, since a fact
//! at a path of the file (sort 0) has nothing else.

use std::fmt;
use std::marker::PhantomData;
use std::rc::Rc;

use syntax::SyntaxNode;
use syntax::tree::Tree;

use crate::{HirDatabase, Type};

/// Flags of sort 1.
const USABLE: u32 = 1;
const DEFINITION: u32 = 2;
const ASSOCIATED: u32 = 4;

#[derive(Clone, Copy, Debug)]
pub enum PathResolution<'db> {
    Def(ModuleDef),
    /// Any resolution that is no definition.
    Other(u32, PhantomData<&'db ()>),
}

impl PathResolution<'_> {
    /// The resolution of a path of the file, which is compared and asked nothing else.
    pub(crate) fn of_code(number: u32) -> Self {
        PathResolution::Other(number, PhantomData)
    }

    /// The resolution of a rule's path by the table above; none for flags that are not fed.
    pub(crate) fn of_rule(path: &SyntaxNode, number: u32, flags: u32) -> Option<Self> {
        let at = Some((path.tree().id(), path.element()));
        let has = |flag| flags & flag != 0;
        Some(match (has(USABLE), has(ASSOCIATED)) {
            (true, false) if !has(DEFINITION) => PathResolution::of_code(number),
            (true, true) if !has(DEFINITION) => return None,
            (false, false) => PathResolution::Def(ModuleDef::Const(Const { number, at })),
            (takes_self, associated) => {
                let function = Function { number, at, associated, takes_self };
                PathResolution::Def(ModuleDef::Function(function))
            }
        })
    }

    pub fn number(&self) -> u32 {
        match self {
            PathResolution::Def(def) => def.number(),
            PathResolution::Other(number, _) => *number,
        }
    }
}

impl PartialEq for PathResolution<'_> {
    fn eq(&self, other: &Self) -> bool {
        self.number() == other.number()
    }
}

/// A rule's path: tree and element. It is no part of what a definition is.
type At = Option<(u32, u32)>;

#[derive(Clone, Copy, Debug)]
pub enum ModuleDef {
    Function(Function),
    Const(Const),
    TypeAlias(TypeAlias),
    Adt(Adt),
}

impl ModuleDef {
    fn number(self) -> u32 {
        match self {
            ModuleDef::Function(function) => function.number,
            ModuleDef::Const(constant) => constant.number,
            ModuleDef::TypeAlias(alias) => match alias {},
            ModuleDef::Adt(adt) => adt.ty,
        }
    }

    fn at(self) -> At {
        match self {
            ModuleDef::Function(function) => function.at,
            ModuleDef::Const(constant) => constant.at,
            ModuleDef::TypeAlias(alias) => match alias {},
            ModuleDef::Adt(_) => None,
        }
    }
}

#[derive(Clone, Copy, Debug)]
pub struct Function {
    number: u32,
    at: At,
    associated: bool,
    takes_self: bool,
}

impl Function {
    /// The function of a method call in the file.
    pub(crate) fn of_method_call(number: u32, takes_self: bool) -> Function {
        Function { number, at: None, associated: true, takes_self }
    }

    pub fn number(self) -> u32 {
        self.number
    }

    pub fn self_param<DB: ?Sized>(self, _db: &DB) -> Option<SelfParam> {
        self.takes_self.then_some(SelfParam { kind: 0 })
    }
}

impl PartialEq for Function {
    fn eq(&self, other: &Function) -> bool {
        self.number == other.number
    }
}

/// A self parameter; its kind is that of the method call's fact.
#[derive(Clone, Copy, Debug)]
pub struct SelfParam {
    pub(crate) kind: u32,
}

/// An associated constant.
#[derive(Clone, Copy, Debug)]
pub struct Const {
    number: u32,
    at: At,
}

/// No fact says that something is a type alias.
#[derive(Clone, Copy, Debug)]
pub enum TypeAlias {}

/// The type that a qualifier names (sort 4).
#[derive(Clone, Copy, Debug)]
pub struct Adt {
    pub(crate) ty: u32,
}

impl Adt {
    pub fn ty<'db>(self, _db: &'db dyn HirDatabase) -> Type<'db> {
        Type::of_qualifier(self.ty)
    }
}

pub trait AsAssocItem {
    fn as_assoc_item(&self, db: &dyn HirDatabase) -> Option<()>;
}

impl AsAssocItem for Function {
    fn as_assoc_item(&self, _db: &dyn HirDatabase) -> Option<()> {
        self.associated.then_some(())
    }
}

impl AsAssocItem for ModuleDef {
    fn as_assoc_item(&self, db: &dyn HirDatabase) -> Option<()> {
        match self {
            ModuleDef::Function(function) => function.as_assoc_item(db),
            ModuleDef::Const(_) => Some(()),
            ModuleDef::TypeAlias(alias) => match *alias {},
            ModuleDef::Adt(_) => None,
        }
    }
}

/// A candidate on a type. There are none: an absent fact is the crate's `None`.
pub enum AssocItem {}

impl AssocItem {
    pub fn name<DB: ?Sized>(&self, _db: &DB) -> Option<Name> {
        match *self {}
    }
}

impl From<AssocItem> for ModuleDef {
    fn from(item: AssocItem) -> ModuleDef {
        match item {}
    }
}

pub enum Name {}

impl Name {
    pub fn as_str(&self) -> &str {
        match *self {}
    }
}

/// A module by its number (sorts 6 and 7).
#[derive(Clone, Copy, Debug)]
pub struct Module {
    pub(crate) number: u32,
}

/// How the crate wants a path; the text of the fact is taken as it stands.
pub struct FindPathConfig {
    pub prefer_no_std: bool,
    pub prefer_prelude: bool,
    pub prefer_absolute: bool,
    pub allow_unstable: bool,
}

impl Module {
    /// The text of the template path that `def` was resolved from, in this module (sort 7).
    pub fn find_path(
        self,
        db: &impl HirDatabase,
        def: ModuleDef,
        _config: FindPathConfig,
    ) -> Option<ModPath> {
        let (tree, element) = def.at()?;
        let tree = db.template_tree(tree)?;
        let [_, start, length] = tree.fact_at(7, element, self.number)?;
        Some(ModPath { tree: tree.clone(), start, length })
    }
}

/// A path text by its place in a tree's fact text.
#[derive(Clone)]
pub struct ModPath {
    tree: Rc<Tree>,
    start: u32,
    length: u32,
}

impl ModPath {
    pub fn display<DB: ?Sized>(&self, _db: &DB, _edition: parser::Edition) -> impl fmt::Display {
        self.text()
    }

    /// Decoding has looked whether the text is one.
    fn text(&self) -> &str {
        self.tree.path_text(self.start, self.length).unwrap_or_default()
    }

    /// Start and length in the fact text.
    pub fn place(&self) -> (u32, u32) {
        (self.start, self.length)
    }
}

impl fmt::Debug for ModPath {
    fn fmt(&self, f: &mut fmt::Formatter<'_>) -> fmt::Result {
        fmt::Debug::fmt(self.text(), f)
    }
}
