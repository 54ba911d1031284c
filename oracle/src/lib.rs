//! The Rust's own pruning pass, as a library over words (README.md).
//!
//! This crate is the module tree that the supplied files expect, filled with stand-ins. `read_expr` and `read_rule`
//! make the Rust's trees of words; the methods of `Expr` and `Rule` run the Rust's own functions on them.
#![allow(unused, clippy::all)]

// The supplied files name this crate; here it is the oracle itself.
extern crate self as starlark_syntax;

pub mod attributes;
pub mod coerce;
pub mod collections;
pub mod environment;
pub mod eval;
pub mod foldable;
pub mod slice_vec_ext;
pub mod syntax;
pub mod values;
mod words;

pub use values::set_string_length;

use eval::compiler::def_inline;
use eval::compiler::def_inline::InlineDefBody;
use eval::compiler::expr;
use eval::compiler::expr::ExprCompiled;
use eval::compiler::expr_bool::ExprCompiledBool;
use eval::compiler::opt_ctx::OptCtx;
use eval::compiler::span::IrSpanned;
use eval::compiler::stmt::StmtsCompiled;
use words::Reader;
use words::Writer;

/// Whether attempts to fold succeed. They fail in the oracle (01: "The pass folds nothing else"); in the build
/// `oracle_folding`, which has no line inserted into any function, they succeed, mostly with a marker.
pub const FOLDING: bool = cfg!(folding);

/// An error of the real runtime: here without content.
#[derive(Debug, Clone, Copy)]
pub struct Error;
pub type Result<T> = std::result::Result<T, Error>;

#[macro_export]
macro_rules! singleton_heap_name {
    () => {
        "oracle"
    };
}

/// One expression.
pub struct Expr(IrSpanned<ExprCompiled>);

/// A list of statements.
pub struct Rule(StmtsCompiled);

/// What `inline_def_body` answers, as document 01 names it.
#[derive(Copy, Clone, Debug, PartialEq, Eq)]
pub enum Inline {
    Neither,
    /// The number of the text.
    TypeTest(u32),
    /// The word where the expression begins.
    Safe(u32),
    NoneValue,
}

/// What `ExprCompiledBool::new` gives.
pub enum Condition {
    Const(bool),
    Expr(Expr),
}

/// The expression that the words hold, and nothing behind it. Depth and length have no limit here.
pub fn read_expr(words: &[u32]) -> Option<Expr> {
    let mut reader = Reader::new(words);
    let e = reader.expr().ok()?;
    reader.at_end().then_some(Expr(e))
}

/// The rule that the words hold, and nothing behind it.
pub fn read_rule(words: &[u32]) -> Option<Rule> {
    let mut reader = Reader::new(words);
    let list = reader.stmts().ok()?;
    reader.at_end().then_some(Rule(list))
}

impl Expr {
    pub fn words(&self) -> Vec<u32> {
        let mut writer = Writer::default();
        writer.expr(&self.0);
        writer.words
    }
    pub fn is_pure_infallible(&self) -> bool {
        self.0.is_pure_infallible()
    }
    pub fn is_pure_infallible_to_bool(&self) -> Option<bool> {
        self.0.is_pure_infallible_to_bool()
    }
    pub fn is_definitely_bool(&self) -> bool {
        expr::access::is_definitely_bool(&self.0)
    }
    pub fn is_iterable_empty(&self) -> bool {
        self.0.is_iterable_empty()
    }
    /// Whether it is safe to inline, and the counter afterwards.
    pub fn is_safe_to_inline_expr(&self, param_count: u32) -> (bool, u32) {
        def_inline::access::safe(&self.0, param_count)
    }
    pub fn condition(self) -> Condition {
        let made = ExprCompiledBool::new(self.0);
        match made.node {
            ExprCompiledBool::Const(b) => Condition::Const(b),
            ExprCompiledBool::Expr(node) => Condition::Expr(Expr(IrSpanned { span: made.span, node })),
        }
    }
    /// The pass on one expression, with the foldable places met.
    pub fn optimize(&self) -> (Expr, u64) {
        foldable::reset();
        let made = self.0.optimize(&mut OptCtx::default());
        (Expr(made), foldable::count())
    }
}

impl Rule {
    pub fn words(&self) -> Vec<u32> {
        let mut writer = Writer::default();
        writer.stmts(&self.0);
        writer.words
    }
    /// The pass, with the foldable places met.
    pub fn prune(&self) -> (Rule, u64) {
        foldable::reset();
        let made = self.0.optimize(&mut OptCtx::default());
        (Rule(made), foldable::count())
    }
    pub fn inline_def_body(&self, params: u32, first_positional: bool, star: bool, param_variables: u32) -> Inline {
        match def_inline::access::body(params, first_positional, star, param_variables, &self.0) {
            None => Inline::Neither,
            Some(InlineDefBody::ReturnTypeIs(t)) => Inline::TypeTest(t.0),
            // An expression that was read knows its word; the None of an empty body was made.
            Some(InlineDefBody::ReturnSafeToInlineExpr(e)) if e.span.at == 0 => Inline::NoneValue,
            Some(InlineDefBody::ReturnSafeToInlineExpr(e)) => Inline::Safe(e.span.at),
        }
    }
}
