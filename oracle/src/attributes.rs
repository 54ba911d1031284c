//! Attribute look-up at compile time: fails where nothing folds.
use crate::collections::symbol::symbol::Symbol;
use crate::eval::compiler::expr::MemberOrValue;
use crate::values::Heap;
use crate::values::Value;

pub(crate) fn get_attr_hashed_raw<'v>(
    _x: Value<'v>,
    _attribute: &Symbol,
    _heap: Heap<'v>,
) -> crate::Result<MemberOrValue<'v, 'static>> {
    crate::values::fold_attempt(4).map(MemberOrValue::Value)
}
