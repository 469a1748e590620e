//! Questions about the file, answered by its facts, and the scope that rules are resolved in.

use syntax::ast::{self, AstNode, SelfParamKind};
use syntax::tree::{Origin, Tree};
use syntax::{SyntaxNode, TextRange, TextSize};

use crate::{
    Adt, Crate, Function, HirDatabase, Module, ModuleDef, PathResolution, SelfParam, Type, TypeInfo,
};

/// There is one file.
#[derive(Clone, Copy, Debug, PartialEq, Eq, PartialOrd, Ord)]
pub struct EditionedFileId;

impl EditionedFileId {
    pub fn edition<DB: ?Sized>(self, _db: &DB) -> parser::Edition {
        parser::Edition::CURRENT
    }
}

#[derive(Clone, Copy, Debug)]
pub struct FileRange {
    pub file_id: EditionedFileId,
    pub range: TextRange,
}

#[derive(Clone, Copy, Debug)]
pub struct FilePosition {
    pub file_id: EditionedFileId,
    pub offset: TextSize,
}

pub struct Semantics<'db, DB> {
    pub db: &'db DB,
}

impl<'db, DB: HirDatabase> Semantics<'db, DB> {
    pub fn new(db: &'db DB) -> Semantics<'db, DB> {
        Semantics { db }
    }

    /// The file that rules are resolved from: an empty one, since facts do the resolving.
    pub fn parse(&self, _file_id: EditionedFileId) -> ast::SourceFile {
        ast::SourceFile::cast(Tree::context().root()).expect("the context's root is a source file")
    }

    pub fn original_range_opt(&self, node: &SyntaxNode) -> Option<FileRange> {
        Some(FileRange { file_id: EditionedFileId, range: node.text_range() })
    }

    pub fn ancestors_with_macros(&self, node: SyntaxNode) -> impl Iterator<Item = SyntaxNode> {
        node.ancestors()
    }

    /// The scope at a node of the file with a module (sort 6), or at the context.
    pub fn scope(&self, node: &SyntaxNode) -> Option<SemanticsScope<'db>> {
        let module = node.tree().fact(6, node.element()).map(|[number, ..]| Module { number });
        let resolves = module.is_some() || node.tree().origin() == Origin::Context;
        resolves.then_some(SemanticsScope {
            db: self.db,
            module: module.unwrap_or(Module { number: 0 }),
        })
    }

    /// Sort 0.
    pub fn resolve_path(&self, path: &ast::Path) -> Option<PathResolution<'db>> {
        let node = path.syntax();
        let [number, ..] = node.tree().fact(0, node.element())?;
        Some(PathResolution::of_code(number))
    }

    /// Sort 2.
    pub fn resolve_method_call(&self, call: &ast::MethodCallExpr) -> Option<Function> {
        let [function, takes_self, _] = method_call(call)?;
        Some(Function::of_method_call(function, takes_self == 1))
    }

    pub fn resolve_method_call_as_callable(&self, call: &ast::MethodCallExpr) -> Option<Callable> {
        let [_, takes_self, kind] = method_call(call)?;
        Some(Callable { receiver: (takes_self == 1).then_some(SelfParam { kind }) })
    }

    pub fn source(&self, param: SelfParam) -> Option<InFile<ast::SelfParam>> {
        let kind = match param.kind {
            0 => SelfParamKind::Owned,
            1 => SelfParamKind::Ref,
            _ => SelfParamKind::MutRef,
        };
        Some(InFile { value: ast::SelfParam::new(kind) })
    }

    pub fn type_of_expr(&self, expr: &ast::Expr) -> Option<TypeInfo<'db>> {
        Some(TypeInfo { original: Type::of_expr(expr.syntax())? })
    }
}

fn method_call(call: &ast::MethodCallExpr) -> Option<[u32; 3]> {
    call.syntax().tree().fact(2, call.syntax().element())
}

/// A method call's function with its receiver.
pub struct Callable {
    receiver: Option<SelfParam>,
}

impl Callable {
    pub fn receiver_param<DB: ?Sized>(&self, _db: &DB) -> Option<(SelfParam, ())> {
        self.receiver.map(|param| (param, ()))
    }
}

pub struct InFile<T> {
    pub value: T,
}

pub struct SemanticsScope<'db> {
    pub db: &'db dyn HirDatabase,
    module: Module,
}

/// No traits are asked.
pub struct VisibleTraits;

impl<'db> SemanticsScope<'db> {
    /// A path that the crate took from a rule's tree is answered by its fact of sort 1. A path that
    /// it took from another as its qualifier is asked only for the type it names, and that is the
    /// other path's fact of sort 4: `qualifier_type` asks so, and so does `resolve_path` after a
    /// path without a fact, where the type has no candidates and the answer is none either way.
    pub fn speculative_resolve(&self, path: &ast::Path) -> Option<PathResolution<'db>> {
        if let Some(qualified) = path.qualifier_of() {
            let [ty, ..] = qualified.tree().fact(4, qualified.element())?;
            return Some(PathResolution::Def(ModuleDef::Adt(Adt { ty })));
        }
        let node = path.syntax();
        let [number, flags, _] = node.tree().fact(1, node.element())?;
        PathResolution::of_rule(node, number, flags)
    }

    pub fn visible_traits(&self) -> (VisibleTraits,) {
        (VisibleTraits,)
    }

    pub fn krate(&self) -> Crate {
        Crate
    }

    pub fn module(&self) -> Module {
        self.module
    }
}
