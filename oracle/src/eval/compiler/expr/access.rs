//! Added inside expr.rs: the way to a private function.
use super::*;

pub(crate) fn is_definitely_bool(e: &ExprCompiled) -> bool {
    e.is_definitely_bool()
}
