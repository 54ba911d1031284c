//! Values. Truth, type text and length are those of document 01, with 02's request 2.3.
use std::marker::PhantomData;
use std::ops::Deref;
use std::sync::OnceLock;
use std::sync::atomic::AtomicBool;
use std::sync::atomic::Ordering;

use crate::Error;
use crate::eval::Arguments;
use crate::eval::Evaluator;
use crate::eval::compiler::def_inline::local_as_value::LocalAsValue;
use crate::eval::compiler::def_inline::local_as_value::local_as_value;
use crate::eval::runtime::slots::LocalSlotId;

/// The texts of document 01 that have a number of their own.
pub const NAMED: [&str; 9] = ["", "NoneType", "bool", "int", "string", "function", "tuple", "list", "dict"];

/// The text with this number. No two numbers are one text.
pub fn text(n: u32) -> &'static str {
    static TEXTS: OnceLock<Vec<&'static str>> = OnceLock::new();
    let all = TEXTS.get_or_init(|| {
        (0..65536u32)
            .map(|i| match NAMED.get(i as usize) {
                Some(s) => *s,
                None => &*Box::leak(format!("text {i}").into_boxed_str()),
            })
            .collect()
    });
    all[n as usize & 0xffff]
}

/// The number of a text made by `text`, 65535 for any other.
pub fn text_number(s: &str) -> u32 {
    match NAMED.iter().position(|t| *t == s) {
        Some(i) => i as u32,
        None => s.strip_prefix("text ").and_then(|t| t.parse().ok()).unwrap_or(65535),
    }
}

/// Whether strings have a length.
static STRING_LENGTH: AtomicBool = AtomicBool::new(false);

/// Gives strings a length, or takes it from them. In the Rust they have one, so that the empty string is an empty
/// iterable; here they have none unless this is called (02, request 2.3).
pub fn set_string_length(on: bool) {
    STRING_LENGTH.store(on, Ordering::Relaxed);
}

/// What a fold gives in the folding build: an "other" constant that no input has by chance.
pub fn marker(n: u32) -> FrozenValue {
    FrozenValue::Other(0xF01D_0000 + n, 0x1_0009)
}

/// One attempt to fold: refused, or a marker in the folding build.
pub fn fold_attempt<'v>(n: u32) -> crate::Result<Value<'v>> {
    if crate::FOLDING { Ok(marker(n).to_value()) } else { Err(Error) }
}

/// The constants of document 01, and two things that the words cannot hold.
#[derive(Copy, Clone, Debug, PartialEq, Eq)]
pub enum FrozenValue {
    None,
    Bool(bool),
    Int(i32),
    /// The number of the text.
    Str(u32),
    FnType,
    FnLen,
    /// Number; then type text (bits 0 to 15), truth (16), empty (17).
    Other(u32, u32),
    /// Never read from words.
    FnIsinstance,
    /// `LocalAsValue` of this slot; only inside `try_inline`.
    LocalMark(u32),
}

impl FrozenValue {
    pub fn new_none() -> FrozenValue {
        FrozenValue::None
    }
    pub fn new_bool(b: bool) -> FrozenValue {
        FrozenValue::Bool(b)
    }
    pub fn new_int(i: types::int::inline_int::InlineInt) -> FrozenValue {
        FrozenValue::Int(i.0)
    }
    pub fn to_value<'v>(self) -> Value<'v> {
        Value { held: Held::Frozen(self), marker: PhantomData }
    }
    /// Every constant of document 01 counts as built in.
    pub fn is_builtin(self) -> bool {
        true
    }
    pub fn unpack_bool(self) -> Option<bool> {
        match self {
            FrozenValue::Bool(b) => Some(b),
            _ => None,
        }
    }
    pub fn equals(self, other: Value) -> crate::Result<bool> {
        self.to_value().equals(other)
    }
    pub fn speculative_exec_safe(self) -> bool {
        crate::FOLDING
    }

    fn truth(self) -> bool {
        match self {
            FrozenValue::None => false,
            FrozenValue::Bool(b) => b,
            FrozenValue::Int(i) => i != 0,
            FrozenValue::Str(t) => t != 0,
            FrozenValue::Other(_, word) => word >> 16 & 1 == 1,
            _ => true,
        }
    }
    fn type_text(self) -> u32 {
        match self {
            FrozenValue::None => 1,
            FrozenValue::Bool(_) => 2,
            FrozenValue::Int(_) => 3,
            FrozenValue::Str(_) => 4,
            FrozenValue::Other(_, word) => word & 0xffff,
            _ => 5,
        }
    }
    /// 0 iff an "other" constant marked empty or, where strings have a length, the empty string.
    fn length(self) -> crate::Result<i32> {
        match self {
            FrozenValue::Str(t) if STRING_LENGTH.load(Ordering::Relaxed) => Ok(text(t).len() as i32),
            FrozenValue::Other(_, word) if word >> 17 & 1 == 1 => Ok(0),
            FrozenValue::Other(..) => Ok(1),
            _ => Err(Error),
        }
    }
}

/// A string constant: the number of its text.
#[derive(Copy, Clone, Debug, PartialEq, Eq)]
pub struct FrozenStringValue(pub u32);

impl FrozenStringValue {
    /// Asked only by foldings (`as_string` in `percent` and `try_eval_type_is`,
    /// and `try_format`), so it refuses where nothing folds.
    pub fn new(v: FrozenValue) -> Option<FrozenStringValue> {
        match v {
            FrozenValue::Str(t) if crate::FOLDING => Some(FrozenStringValue(t)),
            _ => None,
        }
    }
    pub fn as_str(self) -> &'static str {
        text(self.0)
    }
    pub fn to_frozen_value(self) -> FrozenValue {
        FrozenValue::Str(self.0)
    }
}

impl Deref for FrozenStringValue {
    type Target = str;
    fn deref(&self) -> &str {
        text(self.0)
    }
}

/// A string made while folding.
#[derive(Copy, Clone)]
pub struct StringValue<'v>(PhantomData<&'v ()>);

impl<'v> StringValue<'v> {
    pub fn made() -> StringValue<'v> {
        StringValue(PhantomData)
    }
    pub fn as_str(self) -> &'static str {
        "made while folding"
    }
    /// Not frozen, no string that `try_value` would take, unless folding.
    pub fn to_value(self) -> Value<'v> {
        if crate::FOLDING { marker(3).to_value() } else { Value { held: Held::Opaque, marker: PhantomData } }
    }
}

#[derive(Copy, Clone)]
enum Held {
    Frozen(FrozenValue),
    /// A value that nothing can be made of.
    Opaque,
}

#[derive(Copy, Clone)]
pub struct Value<'v> {
    held: Held,
    marker: PhantomData<&'v ()>,
}

impl<'v> Value<'v> {
    pub fn new_bool(b: bool) -> Value<'v> {
        FrozenValue::Bool(b).to_value()
    }
    pub fn unpack_frozen(self) -> Option<FrozenValue> {
        match self.held {
            Held::Frozen(v) => Some(v),
            Held::Opaque => None,
        }
    }
    pub fn unpack_str(self) -> Option<&'v str> {
        None
    }
    pub fn downcast_ref<T>(self) -> Option<&'v T> {
        None
    }
    /// The constant, of which truth, type and length are asked. `Opaque` is never asked.
    fn frozen(self) -> FrozenValue {
        self.unpack_frozen().expect("a constant")
    }
    pub fn to_bool(self) -> bool {
        self.frozen().truth()
    }
    pub fn get_type_value(self) -> FrozenStringValue {
        FrozenStringValue(self.frozen().type_text())
    }
    pub fn get_type(self) -> &'static str {
        text(self.frozen().type_text())
    }
    pub fn length(self) -> crate::Result<i32> {
        self.frozen().length()
    }

    // Foldings.
    pub fn equals(self, b: Value) -> crate::Result<bool> {
        if crate::FOLDING { Ok(self.frozen() == b.frozen()) } else { Err(Error) }
    }
    pub fn compare(self, _b: Value) -> crate::Result<std::cmp::Ordering> {
        if crate::FOLDING { Ok(std::cmp::Ordering::Equal) } else { Err(Error) }
    }
    pub fn is_in(self, _b: Value) -> crate::Result<bool> {
        if crate::FOLDING { Ok(false) } else { Err(Error) }
    }
    pub fn minus(self, _heap: Heap<'v>) -> crate::Result<Value<'v>> {
        fold_attempt(1)
    }
    pub fn plus(self, _heap: Heap<'v>) -> crate::Result<Value<'v>> {
        fold_attempt(1)
    }
    pub fn bit_not(self, _heap: Heap<'v>) -> crate::Result<Value<'v>> {
        fold_attempt(1)
    }
    pub fn slice(
        self,
        _start: Option<Value<'v>>,
        _stop: Option<Value<'v>>,
        _step: Option<Value<'v>>,
        _heap: Heap<'v>,
    ) -> crate::Result<Value<'v>> {
        fold_attempt(5)
    }
    pub(crate) fn invoke(
        self,
        _args: &Arguments<'v, '_>,
        _eval: &mut Evaluator<'v, '_, '_>,
    ) -> crate::Result<Value<'v>> {
        fold_attempt(6)
    }
}

macro_rules! binary {
    ($($name:ident)*) => {
        impl<'v> Value<'v> {
            $(pub fn $name(self, _b: Value<'v>, _heap: Heap<'v>) -> crate::Result<Value<'v>> {
                fold_attempt(2)
            })*
        }
    };
}
binary!(sub add mul percent div floor_div bit_and bit_or bit_xor left_shift right_shift at);

#[derive(Copy, Clone, Debug, Default)]
pub struct Heap<'v>(PhantomData<&'v ()>);

#[derive(Debug, Default)]
pub struct FrozenHeap;

#[derive(Copy, Clone, Debug)]
pub struct FrozenHeapRef;

impl FrozenHeap {
    pub fn new() -> FrozenHeap {
        FrozenHeap
    }
    pub fn alloc_str_intern(&self, s: &str) -> FrozenStringValue {
        FrozenStringValue(text_number(s))
    }
    pub fn alloc<T>(&self, _x: T) -> FrozenValue {
        marker(7)
    }
    pub fn alloc_tuple(&self, elems: &[FrozenValue]) -> FrozenValue {
        // Type text, truth and emptiness of a tuple.
        let (truth, empty) = (!elems.is_empty() as u32, elems.is_empty() as u32);
        FrozenValue::Other(0xF01D_0008, 6 | truth << 16 | empty << 17)
    }
    pub fn alloc_simple<T>(&self, _x: T) -> FrozenValue {
        marker(9)
    }
    pub(crate) fn alloc_simple_typed_static(&self, x: LocalAsValue) -> FrozenValueTyped<'static, LocalAsValue> {
        let value = FrozenValue::LocalMark(x.local.0);
        FrozenValueTyped { value, typed: Box::leak(Box::new(x)), marker: PhantomData }
    }
    pub fn into_ref_named(self, _name: layout::heap::heap_type::FrozenHeapName) -> FrozenHeapRef {
        FrozenHeapRef
    }
}

/// A frozen value known to be a `T`.
pub(crate) trait KnownType: Sized + 'static {
    fn from_frozen(v: FrozenValue) -> Option<&'static Self>;
}

pub(crate) struct FrozenValueTyped<'v, T: 'static> {
    value: FrozenValue,
    typed: &'static T,
    marker: PhantomData<&'v ()>,
}

impl<'v, T> Copy for FrozenValueTyped<'v, T> {}
impl<'v, T> Clone for FrozenValueTyped<'v, T> {
    fn clone(&self) -> Self {
        *self
    }
}

impl<'v, T: KnownType> FrozenValueTyped<'v, T> {
    pub(crate) fn new(value: FrozenValue) -> Option<FrozenValueTyped<'v, T>> {
        T::from_frozen(value).map(|typed| FrozenValueTyped { value, typed, marker: PhantomData })
    }
    pub(crate) fn as_ref(self) -> &'static T {
        self.typed
    }
    pub(crate) fn to_frozen_value(self) -> FrozenValue {
        self.value
    }
    pub(crate) fn to_value<'w>(self) -> Value<'w> {
        self.value.to_value()
    }
}

impl<'v, T> Deref for FrozenValueTyped<'v, T> {
    type Target = T;
    fn deref(&self) -> &T {
        self.typed
    }
}

impl KnownType for LocalAsValue {
    fn from_frozen(v: FrozenValue) -> Option<&'static LocalAsValue> {
        match v {
            FrozenValue::LocalMark(slot) => local_as_value(LocalSlotId(slot)).map(|t| t.as_ref()),
            _ => None,
        }
    }
}

/// Only its `get_type_value_static` is used; each type below has its own.
pub trait StarlarkValue {}

pub mod layout {
    pub mod heap {
        pub mod heap_type {
            pub enum FrozenHeapName {
                Singleton(&'static str),
            }
        }
    }
}

pub mod bool {
    pub struct StarlarkBool;
    impl StarlarkBool {
        pub fn get_type_value_static() -> super::FrozenStringValue {
            super::FrozenStringValue(2)
        }
    }
}

pub mod enumeration {
    use super::*;
    /// No constant of document 01 is an enum type.
    pub(crate) struct FrozenEnumType;
    impl FrozenEnumType {
        pub(crate) fn construct(&self, _v: Value) -> crate::Result<FrozenValue> {
            Err(Error)
        }
    }
    impl KnownType for FrozenEnumType {
        fn from_frozen(_v: FrozenValue) -> Option<&'static FrozenEnumType> {
            None
        }
    }
}

pub mod function {
    use super::*;
    pub struct Method {
        pub name: String,
    }
    /// No constant of document 01 is a bound method.
    pub struct FrozenBoundMethod {
        pub this: FrozenValue,
        pub method: Method,
    }
    impl KnownType for FrozenBoundMethod {
        fn from_frozen(_v: FrozenValue) -> Option<&'static FrozenBoundMethod> {
            None
        }
    }
    pub struct BoundMethodGen;
    impl BoundMethodGen {
        pub fn new<M>(_this: FrozenValue, _method: M) -> BoundMethodGen {
            BoundMethodGen
        }
    }
}

pub mod list {
    use super::*;
    /// A fold that gives an unfrozen list: never here.
    pub struct ListRef;
    impl ListRef {
        pub fn from_value<'v>(_v: Value<'v>) -> Option<&'v ListRef> {
            None
        }
        pub fn content<'v>(&self) -> &[Value<'v>] {
            &[]
        }
    }
}

pub mod range {
    #[derive(Copy, Clone)]
    pub struct Range;
}

pub mod dict {
    pub use super::types::dict::Dict;
}

pub mod string {
    pub mod dot_format {
        /// `"aaa{}bbb"`: taken apart in the folding build.
        pub fn parse_format_one(s: &str) -> Option<(String, String)> {
            if crate::FOLDING { Some((s.to_owned(), s.to_owned())) } else { None }
        }
    }
    pub mod interpolation {
        /// `"aaa%sbbb"`: taken apart in the folding build.
        pub fn parse_percent_s_one(s: &str) -> Option<(String, String)> {
            if crate::FOLDING { Some((s.to_owned(), s.to_owned())) } else { None }
        }
    }
}

pub mod typing {
    pub mod type_compiled {
        pub mod compiled {
            /// A type on an assignment: the type word.
            #[derive(Copy, Clone, Debug)]
            pub struct TypeCompiled<V>(pub u32, pub std::marker::PhantomData<V>);
        }
    }
}

pub mod types {
    pub mod dict {
        pub struct Dict;
        impl Dict {
            pub fn get_type_value_static() -> crate::values::FrozenStringValue {
                crate::values::FrozenStringValue(8)
            }
        }
    }
    pub mod float {
        #[derive(Copy, Clone)]
        pub struct StarlarkFloat;
    }
    pub mod int {
        pub mod inline_int {
            pub struct InlineInt(pub i32);
            /// Asked only when `len` of a constant is folded.
            impl TryFrom<i32> for InlineInt {
                type Error = ();
                fn try_from(i: i32) -> Result<InlineInt, ()> {
                    if crate::FOLDING { Ok(InlineInt(i)) } else { Err(()) }
                }
            }
        }
    }
    pub mod list {
        pub mod value {
            use crate::values::FrozenValue;
            pub struct ListData;
            impl ListData {
                pub fn get_type_value_static() -> crate::values::FrozenStringValue {
                    crate::values::FrozenStringValue(7)
                }
            }
            /// Contents of a list constant: unknown here; in the folding build any
            /// constant is a list of itself.
            pub struct FrozenListData<'a>(&'a FrozenValue);
            impl<'a> FrozenListData<'a> {
                pub fn from_frozen_value(v: &'a FrozenValue) -> Option<FrozenListData<'a>> {
                    if crate::FOLDING { Some(FrozenListData(v)) } else { None }
                }
                pub fn len(&self) -> usize {
                    1
                }
                pub fn content(&self) -> &'a [FrozenValue] {
                    std::slice::from_ref(self.0)
                }
            }
        }
    }
    pub mod string {
        pub mod dot_format {
            use crate::values::*;
            pub fn format_one<'v>(_before: &str, _v: Value<'v>, _after: &str, _heap: Heap<'v>) -> StringValue<'v> {
                StringValue::made()
            }
        }
        pub mod interpolation {
            use crate::values::*;
            pub fn percent_s_one<'v>(
                _before: &str,
                _v: Value<'v>,
                _after: &str,
                _heap: Heap<'v>,
            ) -> crate::Result<StringValue<'v>> {
                if crate::FOLDING { Ok(StringValue::made()) } else { Err(Error) }
            }
        }
    }
    pub mod tuple {
        pub mod value {
            use crate::values::*;
            /// A fold that gives an unfrozen tuple: never here.
            pub struct Tuple;
            impl Tuple {
                pub fn get_type_value_static() -> FrozenStringValue {
                    FrozenStringValue(6)
                }
                pub fn from_value<'v>(_v: Value<'v>) -> Option<&'v Tuple> {
                    None
                }
                pub fn content<'v>(&self) -> &[Value<'v>] {
                    &[]
                }
            }
        }
    }
    pub mod unbound {
        pub enum UnboundValue {
            Method(u32),
            Attr(u32),
        }
    }
}
