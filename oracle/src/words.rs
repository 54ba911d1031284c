//! Words of document 01, read into the Rust's trees and written back. The limits of depth and length are not the
//! reader's business: it is given words that were accepted.
use std::marker::PhantomData;

use crate::collections::symbol::symbol::Symbol;
use crate::environment::slots::ModuleSlotId;
use crate::eval::compiler::args::ArgsCompiledValue;
use crate::eval::compiler::call::CallCompiled;
use crate::eval::compiler::def::DefCompiled;
use crate::eval::compiler::expr::Builtin1;
use crate::eval::compiler::expr::Builtin2;
use crate::eval::compiler::expr::CompareOp;
use crate::eval::compiler::expr::ExprCompiled;
use crate::eval::compiler::expr::ExprLogicalBinOp;
use crate::eval::compiler::span::IrSpanned;
use crate::eval::compiler::stmt;
use crate::eval::compiler::stmt::AssignCompiledValue;
use crate::eval::compiler::stmt::AssignModifyLhs;
use crate::eval::compiler::stmt::StmtCompiled;
use crate::eval::compiler::stmt::StmtsCompiled;
use crate::eval::runtime::frame_span::FrameSpan;
use crate::eval::runtime::slots::LocalCapturedSlotId;
use crate::eval::runtime::slots::LocalSlotId;
use crate::syntax::ast::AssignOp;
use crate::values::FrozenStringValue;
use crate::values::FrozenValue;
use crate::values::text;
use crate::values::text_number;
use crate::values::typing::type_compiled::compiled::TypeCompiled;

/// Words that hold no tree.
pub(crate) struct Invalid;
type Read<T> = Result<T, Invalid>;
type Expr = IrSpanned<ExprCompiled>;

pub(crate) struct Reader<'a> {
    words: &'a [u32],
    at: usize,
}

fn made<T>(node: T) -> IrSpanned<T> {
    IrSpanned { span: FrameSpan::default(), node }
}

fn check(ok: bool) -> Read<()> {
    if ok { Ok(()) } else { Err(Invalid) }
}

impl<'a> Reader<'a> {
    pub(crate) fn new(words: &'a [u32]) -> Reader<'a> {
        Reader { words, at: 0 }
    }

    pub(crate) fn at_end(&self) -> bool {
        self.at == self.words.len()
    }

    fn word(&mut self) -> Read<u32> {
        let w = *self.words.get(self.at).ok_or(Invalid)?;
        self.at += 1;
        Ok(w)
    }

    fn text(&mut self) -> Read<u32> {
        let w = self.word()?;
        check(w < 65536)?;
        Ok(w)
    }

    fn string(&mut self) -> Read<FrozenStringValue> {
        Ok(FrozenStringValue(self.text()?))
    }

    /// Kind and detail.
    fn header(&mut self) -> Read<(u32, u32)> {
        let w = self.word()?;
        Ok((w & 0xff, w >> 8))
    }

    fn exprs(&mut self, n: u32) -> Read<Vec<Expr>> {
        let mut v = Vec::new();
        for _ in 0..n {
            v.push(self.expr()?);
        }
        Ok(v)
    }

    fn boxed(&mut self) -> Read<Box<Expr>> {
        Ok(Box::new(self.expr()?))
    }

    fn two(&mut self) -> Read<Box<(Expr, Expr)>> {
        Ok(Box::new((self.expr()?, self.expr()?)))
    }

    fn three(&mut self) -> Read<Box<(Expr, Expr, Expr)>> {
        Ok(Box::new((self.expr()?, self.expr()?, self.expr()?)))
    }

    fn optional(&mut self, there: bool) -> Read<Option<Expr>> {
        if there { Ok(Some(self.expr()?)) } else { Ok(None) }
    }

    fn constant(&mut self, class: u32) -> Read<FrozenValue> {
        let w = self.word()?;
        Ok(match class {
            0 => {
                check(w == 0)?;
                FrozenValue::None
            }
            1 => {
                check(w < 2)?;
                FrozenValue::Bool(w == 1)
            }
            2 => FrozenValue::Int(w as i32),
            3 => {
                check(w < 65536)?;
                FrozenValue::Str(w)
            }
            4 => {
                check(w == 0)?;
                FrozenValue::FnType
            }
            5 => {
                check(w == 0)?;
                FrozenValue::FnLen
            }
            6 => {
                let facts = self.word()?;
                check(facts < 1 << 18)?;
                FrozenValue::Other(w, facts)
            }
            _ => return Err(Invalid),
        })
    }

    pub(crate) fn expr(&mut self) -> Read<Expr> {
        let span = FrameSpan::at(self.at as u32);
        let (kind, detail) = self.header()?;
        let none = |node| check(detail == 0).map(|()| node);
        let node = match kind {
            1 => ExprCompiled::Value(self.constant(detail)?),
            2 => none(ExprCompiled::Local(LocalSlotId(self.word()?)))?,
            3 => none(ExprCompiled::LocalCaptured(LocalCapturedSlotId(self.word()?)))?,
            4 => none(ExprCompiled::Module(ModuleSlotId(self.word()?, 0)))?,
            5 => none(ExprCompiled::Def(DefCompiled(self.word()?)))?,
            6 => ExprCompiled::Tuple(self.exprs(detail)?),
            7 => ExprCompiled::List(self.exprs(detail)?),
            8 => {
                let mut v = Vec::new();
                for _ in 0..detail {
                    v.push((self.expr()?, self.expr()?));
                }
                ExprCompiled::Dict(v)
            }
            9 => none(ExprCompiled::If(self.three()?))?,
            10 => {
                check(detail < 8)?;
                ExprCompiled::Slice(Box::new((
                    self.expr()?,
                    self.optional(detail & 1 != 0)?,
                    self.optional(detail & 2 != 0)?,
                    self.optional(detail & 4 != 0)?,
                )))
            }
            11 => {
                let op = match detail {
                    0 => Builtin1::Minus,
                    1 => Builtin1::Plus,
                    2 => Builtin1::BitNot,
                    3 => Builtin1::Not,
                    4 => Builtin1::TypeIs(self.string()?),
                    5 => Builtin1::PercentSOne(self.string()?, self.string()?),
                    6 => Builtin1::FormatOne(self.string()?, self.string()?),
                    7 => Builtin1::Dot(Symbol(self.text()?)),
                    _ => return Err(Invalid),
                };
                ExprCompiled::Builtin1(op, self.boxed()?)
            }
            12 => {
                let op = match detail {
                    0 => ExprLogicalBinOp::And,
                    1 => ExprLogicalBinOp::Or,
                    _ => return Err(Invalid),
                };
                ExprCompiled::LogicalBinOp(op, self.two()?)
            }
            13 => none(ExprCompiled::Seq(self.two()?))?,
            14 => ExprCompiled::Builtin2(builtin2(detail)?, self.two()?),
            15 => none(ExprCompiled::Index2(self.three()?))?,
            16 => {
                let w = self.word()?;
                let names = w & 0xffff;
                check(w < 1 << 18 && names <= detail)?;
                let mut texts = Vec::new();
                for _ in 0..names {
                    let t = self.text()?;
                    texts.push((Symbol(t), FrozenStringValue(t)));
                }
                let fun = self.expr()?;
                let args = ArgsCompiledValue {
                    pos_named: self.exprs(detail)?,
                    names: texts,
                    args: self.optional(w & 1 << 16 != 0)?,
                    kwargs: self.optional(w & 1 << 17 != 0)?,
                };
                ExprCompiled::Call(Box::new(IrSpanned { span, node: CallCompiled { fun, args } }))
            }
            _ => return Err(Invalid),
        };
        Ok(IrSpanned { span, node })
    }

    fn target(&mut self) -> Read<IrSpanned<AssignCompiledValue>> {
        let (kind, detail) = self.header()?;
        check(detail == 0 || kind == 66)?;
        let node = match kind {
            64 => {
                let t = text(self.text()?).to_owned();
                AssignCompiledValue::Dot(self.expr()?, t)
            }
            65 => AssignCompiledValue::Index(self.expr()?, self.expr()?),
            66 => {
                let mut v = Vec::new();
                for _ in 0..detail {
                    v.push(self.target()?);
                }
                AssignCompiledValue::Tuple(v)
            }
            67 => AssignCompiledValue::Local(LocalSlotId(self.word()?)),
            68 => AssignCompiledValue::LocalCaptured(LocalCapturedSlotId(self.word()?)),
            69 => {
                let slot = ModuleSlotId(self.word()?, 0);
                AssignCompiledValue::Module(slot, text(self.text()?).to_owned())
            }
            _ => return Err(Invalid),
        };
        Ok(made(node))
    }

    fn modified(&mut self) -> Read<AssignModifyLhs> {
        let (kind, detail) = self.header()?;
        check(detail == 0)?;
        let lhs = match kind {
            64 => {
                let t = text(self.text()?).to_owned();
                AssignModifyLhs::Dot(self.expr()?, t)
            }
            65 => AssignModifyLhs::Array(self.expr()?, self.expr()?),
            67 => AssignModifyLhs::Local(made(LocalSlotId(self.word()?))),
            68 => AssignModifyLhs::LocalCaptured(made(LocalCapturedSlotId(self.word()?))),
            69 => AssignModifyLhs::Module(made(ModuleSlotId(self.word()?, self.text()?))),
            _ => return Err(Invalid),
        };
        Ok(lhs)
    }

    pub(crate) fn stmts(&mut self) -> Read<StmtsCompiled> {
        let n = self.word()?;
        let mut v = Vec::new();
        for _ in 0..n {
            v.push(self.stmt()?);
        }
        Ok(stmt::access::list(v))
    }

    pub(crate) fn stmt(&mut self) -> Read<IrSpanned<StmtCompiled>> {
        let (kind, detail) = self.header()?;
        check(detail == 0 || kind == 36)?;
        let node = match kind {
            32 => StmtCompiled::PossibleGc,
            33 => StmtCompiled::Return(self.expr()?),
            34 => StmtCompiled::Expr(self.expr()?),
            35 => {
                let ty = TypeCompiled(self.word()?, PhantomData);
                StmtCompiled::Assign(self.target()?, Some(made(ty)), self.expr()?)
            }
            36 => {
                check(detail <= 10)?;
                StmtCompiled::AssignModify(self.modified()?, AssignOp(detail), self.expr()?)
            }
            37 => StmtCompiled::If(Box::new((self.expr()?, self.stmts()?, self.stmts()?))),
            38 => StmtCompiled::For(Box::new((self.target()?, self.expr()?, self.stmts()?))),
            39 => StmtCompiled::Break,
            40 => StmtCompiled::Continue,
            _ => return Err(Invalid),
        };
        Ok(made(node))
    }
}

fn builtin2(detail: u32) -> Read<Builtin2> {
    Ok(match detail {
        0 => Builtin2::Equals,
        1 => Builtin2::In,
        2 => Builtin2::Sub,
        3 => Builtin2::Add,
        4 => Builtin2::Multiply,
        5 => Builtin2::Percent,
        6 => Builtin2::Divide,
        7 => Builtin2::FloorDivide,
        8 => Builtin2::BitAnd,
        9 => Builtin2::BitOr,
        10 => Builtin2::BitXor,
        11 => Builtin2::LeftShift,
        12 => Builtin2::RightShift,
        13 => Builtin2::Compare(CompareOp::Less),
        14 => Builtin2::Compare(CompareOp::Greater),
        15 => Builtin2::Compare(CompareOp::LessOrEqual),
        16 => Builtin2::Compare(CompareOp::GreaterOrEqual),
        17 => Builtin2::ArrayIndex,
        _ => return Err(Invalid),
    })
}

fn builtin2_detail(op: Builtin2) -> u32 {
    match op {
        Builtin2::Equals => 0,
        Builtin2::In => 1,
        Builtin2::Sub => 2,
        Builtin2::Add => 3,
        Builtin2::Multiply => 4,
        Builtin2::Percent => 5,
        Builtin2::Divide => 6,
        Builtin2::FloorDivide => 7,
        Builtin2::BitAnd => 8,
        Builtin2::BitOr => 9,
        Builtin2::BitXor => 10,
        Builtin2::LeftShift => 11,
        Builtin2::RightShift => 12,
        Builtin2::Compare(CompareOp::Less) => 13,
        Builtin2::Compare(CompareOp::Greater) => 14,
        Builtin2::Compare(CompareOp::LessOrEqual) => 15,
        Builtin2::Compare(CompareOp::GreaterOrEqual) => 16,
        Builtin2::ArrayIndex => 17,
    }
}

#[derive(Default)]
pub(crate) struct Writer {
    pub(crate) words: Vec<u32>,
}

impl Writer {
    fn put(&mut self, w: u32) {
        self.words.push(w);
    }

    fn header(&mut self, kind: u32, detail: u32) {
        self.put(kind | detail << 8);
    }

    fn each<'a>(&mut self, xs: impl IntoIterator<Item = &'a Expr>) {
        for x in xs {
            self.expr(x);
        }
    }

    fn constant(&mut self, v: FrozenValue) {
        let (class, w) = match v {
            FrozenValue::None => (0, 0),
            FrozenValue::Bool(b) => (1, b as u32),
            FrozenValue::Int(i) => (2, i as u32),
            FrozenValue::Str(t) => (3, t),
            FrozenValue::FnType => (4, 0),
            FrozenValue::FnLen => (5, 0),
            FrozenValue::Other(n, _) => (6, n),
            FrozenValue::FnIsinstance | FrozenValue::LocalMark(_) => {
                unreachable!("never in a result")
            }
        };
        self.header(1, class);
        self.put(w);
        if let FrozenValue::Other(_, facts) = v {
            self.put(facts);
        }
    }

    pub(crate) fn expr(&mut self, e: &Expr) {
        match &e.node {
            ExprCompiled::Value(v) => self.constant(*v),
            ExprCompiled::Local(LocalSlotId(n)) => self.slot(2, *n),
            ExprCompiled::LocalCaptured(LocalCapturedSlotId(n)) => self.slot(3, *n),
            ExprCompiled::Module(slot) => self.slot(4, slot.0),
            ExprCompiled::Def(DefCompiled(n)) => self.slot(5, *n),
            ExprCompiled::Tuple(xs) => {
                self.header(6, xs.len() as u32);
                self.each(xs);
            }
            ExprCompiled::List(xs) => {
                self.header(7, xs.len() as u32);
                self.each(xs);
            }
            ExprCompiled::Dict(xs) => {
                self.header(8, xs.len() as u32);
                for (k, v) in xs {
                    self.each([k, v]);
                }
            }
            ExprCompiled::If(p) => {
                self.header(9, 0);
                self.each([&p.0, &p.1, &p.2]);
            }
            ExprCompiled::Slice(p) => {
                let (a, start, stop, step) = &**p;
                let bit = |x: &Option<Expr>, b: u32| (x.is_some() as u32) << b;
                self.header(10, bit(start, 0) | bit(stop, 1) | bit(step, 2));
                self.expr(a);
                self.each(start);
                self.each(stop);
                self.each(step);
            }
            ExprCompiled::Builtin1(op, x) => {
                let (detail, texts) = match op {
                    Builtin1::Minus => (0, vec![]),
                    Builtin1::Plus => (1, vec![]),
                    Builtin1::BitNot => (2, vec![]),
                    Builtin1::Not => (3, vec![]),
                    Builtin1::TypeIs(t) => (4, vec![t.0]),
                    Builtin1::PercentSOne(a, b) => (5, vec![a.0, b.0]),
                    Builtin1::FormatOne(a, b) => (6, vec![a.0, b.0]),
                    Builtin1::Dot(s) => (7, vec![s.0]),
                };
                self.header(11, detail);
                self.words.extend(texts);
                self.expr(x);
            }
            ExprCompiled::LogicalBinOp(op, p) => {
                self.header(12, (*op == ExprLogicalBinOp::Or) as u32);
                self.each([&p.0, &p.1]);
            }
            ExprCompiled::Seq(p) => {
                self.header(13, 0);
                self.each([&p.0, &p.1]);
            }
            ExprCompiled::Builtin2(op, p) => {
                self.header(14, builtin2_detail(*op));
                self.each([&p.0, &p.1]);
            }
            ExprCompiled::Index2(p) => {
                self.header(15, 0);
                self.each([&p.0, &p.1, &p.2]);
            }
            ExprCompiled::Call(c) => {
                let CallCompiled { fun, args } = &c.node;
                self.header(16, args.pos_named.len() as u32);
                self.put(
                    args.names.len() as u32 | (args.args.is_some() as u32) << 16 | (args.kwargs.is_some() as u32) << 17,
                );
                for (_, name) in &args.names {
                    self.put(name.0);
                }
                self.expr(fun);
                self.each(&args.pos_named);
                self.each(&args.args);
                self.each(&args.kwargs);
            }
            ExprCompiled::Compr(..) => unreachable!("no words hold a comprehension"),
        }
    }

    fn slot(&mut self, kind: u32, slot: u32) {
        self.header(kind, 0);
        self.put(slot);
    }

    fn dot(&mut self, e: &Expr, name: &str) {
        self.slot(64, text_number(name));
        self.expr(e);
    }

    fn target(&mut self, t: &AssignCompiledValue) {
        match t {
            AssignCompiledValue::Dot(e, name) => self.dot(e, name),
            AssignCompiledValue::Index(a, i) => {
                self.header(65, 0);
                self.each([a, i]);
            }
            AssignCompiledValue::Tuple(xs) => {
                self.header(66, xs.len() as u32);
                for x in xs {
                    self.target(x);
                }
            }
            AssignCompiledValue::Local(s) => self.slot(67, s.0),
            AssignCompiledValue::LocalCaptured(s) => self.slot(68, s.0),
            AssignCompiledValue::Module(s, name) => {
                self.slot(69, s.0);
                self.put(text_number(name));
            }
        }
    }

    pub(crate) fn stmts(&mut self, list: &StmtsCompiled) {
        self.put(list.stmts().len() as u32);
        for s in list.stmts() {
            self.stmt(&s.node);
        }
    }

    fn stmt(&mut self, s: &StmtCompiled) {
        match s {
            StmtCompiled::PossibleGc => self.header(32, 0),
            StmtCompiled::Return(e) => {
                self.header(33, 0);
                self.expr(e);
            }
            StmtCompiled::Expr(e) => {
                self.header(34, 0);
                self.expr(e);
            }
            StmtCompiled::Assign(t, ty, e) => {
                self.header(35, 0);
                self.put(ty.map_or(0, |t| t.node.0));
                self.target(t);
                self.expr(e);
            }
            StmtCompiled::AssignModify(lhs, op, e) => {
                self.header(36, op.0);
                match lhs {
                    AssignModifyLhs::Dot(e, name) => self.dot(e, name),
                    AssignModifyLhs::Array(a, i) => {
                        self.header(65, 0);
                        self.each([a, i]);
                    }
                    AssignModifyLhs::Local(s) => self.slot(67, s.node.0),
                    AssignModifyLhs::LocalCaptured(s) => self.slot(68, s.node.0),
                    AssignModifyLhs::Module(s) => {
                        self.slot(69, s.node.0);
                        self.put(s.node.1);
                    }
                }
                self.expr(e);
            }
            StmtCompiled::If(p) => {
                self.header(37, 0);
                self.expr(&p.0);
                self.stmts(&p.1);
                self.stmts(&p.2);
            }
            StmtCompiled::For(p) => {
                self.header(38, 0);
                self.target(&p.0);
                self.expr(&p.1);
                self.stmts(&p.2);
            }
            StmtCompiled::Break => self.header(39, 0),
            StmtCompiled::Continue => self.header(40, 0),
        }
    }
}
