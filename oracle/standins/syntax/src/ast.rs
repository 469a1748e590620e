//! The typed nodes that the crate asks for, with document 01's accessors: an accessor takes the
//! first child of its kind; arguments and receiver are child nodes of expression kind.

use std::cell::Cell;

use crate::{SyntaxKind, SyntaxNode, SyntaxToken};

pub trait AstNode: Sized {
    fn can_cast(kind: SyntaxKind) -> bool;
    fn cast(syntax: SyntaxNode) -> Option<Self>;
    fn syntax(&self) -> &SyntaxNode;
}

pub trait AstToken: Sized {
    fn cast(syntax: SyntaxToken) -> Option<Self>;
    fn syntax(&self) -> &SyntaxToken;
}

macro_rules! node {
    ($name:ident, $test:expr) => {
        #[derive(Clone, Debug)]
        pub struct $name {
            syntax: SyntaxNode,
        }

        impl AstNode for $name {
            #[inline]
            fn can_cast(kind: SyntaxKind) -> bool {
                let test: fn(SyntaxKind) -> bool = $test;
                test(kind)
            }

            #[inline]
            fn cast(syntax: SyntaxNode) -> Option<$name> {
                $name::can_cast(syntax.kind()).then_some($name { syntax })
            }

            #[inline]
            fn syntax(&self) -> &SyntaxNode {
                &self.syntax
            }
        }
    };
}

node!(SourceFile, |kind| kind == SyntaxKind::SOURCE_FILE);
node!(PathSegment, |kind| kind == SyntaxKind::PATH_SEGMENT);
node!(GenericArgList, |kind| kind == SyntaxKind::GENERIC_ARG_LIST);
node!(ParenthesizedArgList, |kind| kind == SyntaxKind::PARENTHESIZED_ARG_LIST);
node!(ArgList, |kind| kind == SyntaxKind::ARG_LIST);
node!(RecordExprField, |kind| kind == SyntaxKind::RECORD_EXPR_FIELD);
node!(CallExpr, |kind| kind == SyntaxKind::CALL_EXPR);
node!(MethodCallExpr, |kind| kind == SyntaxKind::METHOD_CALL_EXPR);
node!(Literal, |kind| kind == SyntaxKind::LITERAL);
node!(Expr, |kind| asked_for(kind).is_expr());
node!(Item, |kind| asked_for(kind).is_item());

thread_local! {
    static ASKED_FOR: Cell<Option<SyntaxKind>> = const { Cell::new(None) };
}

#[inline]
fn asked_for(kind: SyntaxKind) -> SyntaxKind {
    ASKED_FOR.with(|asked| asked.set(Some(kind)));
    kind
}

/// The kind that `Expr::can_cast` or `Item::can_cast` was last asked for. `parse_as_kind` asks them
/// for the template's root kind right before it parses a text, and hands on the text alone.
pub fn kind_asked_for() -> Option<SyntaxKind> {
    ASKED_FOR.with(Cell::get)
}

fn child<N: AstNode>(parent: &SyntaxNode) -> Option<N> {
    parent.children().find_map(N::cast)
}

#[derive(Clone, Debug)]
pub struct Path {
    syntax: SyntaxNode,
    qualifier_of: Option<SyntaxNode>,
}

impl AstNode for Path {
    #[inline]
    fn can_cast(kind: SyntaxKind) -> bool {
        kind == SyntaxKind::PATH
    }

    #[inline]
    fn cast(syntax: SyntaxNode) -> Option<Path> {
        Path::can_cast(syntax.kind()).then_some(Path { syntax, qualifier_of: None })
    }

    #[inline]
    fn syntax(&self) -> &SyntaxNode {
        &self.syntax
    }
}

impl Path {
    #[inline]
    pub fn segment(&self) -> Option<PathSegment> {
        child(&self.syntax)
    }

    pub fn qualifier(&self) -> Option<Path> {
        let path: Path = child(&self.syntax)?;
        Some(Path { qualifier_of: Some(self.syntax.clone()), ..path })
    }

    /// The path that this one was taken from as its qualifier, if it was.
    pub fn qualifier_of(&self) -> Option<&SyntaxNode> {
        self.qualifier_of.as_ref()
    }
}

pub trait HasGenericArgs: AstNode {
    fn generic_arg_list(&self) -> Option<GenericArgList> {
        child(self.syntax())
    }
}

impl HasGenericArgs for PathSegment {}

impl PathSegment {
    pub fn name_ref(&self) -> Option<NameRef> {
        let name_ref = self.syntax.children().find(|node| node.kind() == SyntaxKind::NAME_REF)?;
        Some(NameRef { first_token: name_ref.first_token() })
    }

    #[inline]
    pub fn parenthesized_arg_list(&self) -> Option<ParenthesizedArgList> {
        child(&self.syntax)
    }

    pub fn self_token(&self) -> Option<SyntaxToken> {
        let token = self.name_ref()?.first_token?;
        (token.kind() == SyntaxKind::SELF_KW).then_some(token)
    }
}

/// A name by its first token. Without one the text is empty, which is no placeholder's stand-in.
pub struct NameRef {
    first_token: Option<SyntaxToken>,
}

impl NameRef {
    #[inline]
    pub fn text(&self) -> &str {
        self.first_token.as_ref().map_or("", SyntaxToken::text)
    }
}

impl RecordExprField {
    /// The field's name, by its fact of sort 5.
    pub fn field_name(&self) -> Option<NameRef> {
        let [token, ..] = self.syntax.tree().fact(5, self.syntax.element())?;
        Some(NameRef { first_token: Some(SyntaxToken::of(self.syntax.tree(), token)?) })
    }
}

pub trait HasArgList: AstNode {
    fn arg_list(&self) -> Option<ArgList> {
        child(self.syntax())
    }
}

impl HasArgList for CallExpr {}
impl HasArgList for MethodCallExpr {}

impl ArgList {
    #[inline]
    pub fn args(&self) -> impl Iterator<Item = Expr> + use<> {
        self.syntax.children().filter_map(Expr::cast)
    }
}

impl MethodCallExpr {
    #[inline]
    pub fn receiver(&self) -> Option<Expr> {
        child(&self.syntax)
    }
}

#[derive(Clone, Debug)]
pub struct Comment {
    syntax: SyntaxToken,
}

impl AstToken for Comment {
    fn cast(syntax: SyntaxToken) -> Option<Comment> {
        (syntax.kind() == SyntaxKind::COMMENT).then_some(Comment { syntax })
    }

    fn syntax(&self) -> &SyntaxToken {
        &self.syntax
    }
}

#[derive(Clone, Copy, Debug, PartialEq, Eq)]
pub enum SelfParamKind {
    Owned,
    Ref,
    MutRef,
}

/// A `self` parameter, by the self kind of a method call's fact.
pub struct SelfParam {
    kind: SelfParamKind,
}

impl SelfParam {
    pub fn new(kind: SelfParamKind) -> SelfParam {
        SelfParam { kind }
    }

    pub fn kind(&self) -> SelfParamKind {
        self.kind
    }
}
