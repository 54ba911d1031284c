//! Added inside stmt.rs: lists as they are read, and a function that the supplied files call and do not have.
use super::*;

/// A list as read: nothing is dropped, unlike with `extend`.
pub(crate) fn list(stmts: Vec<IrSpanned<StmtCompiled>>) -> StmtsCompiled {
    StmtsCompiled(SmallVec1::from_vec(stmts))
}

impl StmtCompiled {
    /// The expression of a `return`.
    pub(crate) fn as_return(&self) -> Option<&IrSpanned<ExprCompiled>> {
        match self {
            StmtCompiled::Return(e) => Some(e),
            _ => None,
        }
    }
}
