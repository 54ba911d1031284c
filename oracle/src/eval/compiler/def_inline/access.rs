//! Added inside def_inline.rs: the way to its private functions.
use super::*;
use crate::eval::compiler::def::Param;
use crate::eval::compiler::def::ParamList;

/// The answer, and the counter.
pub(crate) fn safe(e: &ExprCompiled, param_count: u32) -> (bool, u32) {
    let mut check = IsSafeToInlineExpr::new(param_count);
    let safe = check.is_safe_to_inline_expr(e);
    (safe, check.counter)
}

pub(crate) fn body(
    count: u32,
    first_positional: bool,
    star: bool,
    variables: u32,
    stmts: &StmtsCompiled,
) -> Option<InlineDefBody> {
    let params = ParametersCompiled {
        params: ParamList { count, first: Param { positional: first_positional } },
        star,
        variables,
        marker: std::marker::PhantomData,
    };
    inline_def_body(&params, stmts)
}
