//! Stand-ins for what the supplied files use of `crate::eval`.
use std::marker::PhantomData;

use crate::collections::symbol::symbol::Symbol;
use crate::environment::ModuleEnv;
use crate::values::FrozenStringValue;
use crate::values::Value;

/// Arguments of a call made at compile time.
pub(crate) struct Arguments<'v, 'a>(pub(crate) runtime::arguments::ArgumentsFull<'v, 'a>);

impl<'v, 'a> Arguments<'v, 'a> {
    pub(crate) fn frozen_to_v(&self) -> &Arguments<'v, 'a> {
        self
    }
}

/// The evaluator, as far as `try_spec_exec` looks at it.
#[derive(Debug, Default)]
pub(crate) struct Evaluator<'v, 'a, 'e> {
    pub(crate) module_env: ModuleEnv,
    pub(crate) marker: PhantomData<(&'v (), &'a (), &'e ())>,
}

pub mod runtime {
    pub mod arguments {
        use super::super::*;

        pub(crate) struct ArgNames<'a> {
            pub(crate) names: &'a [(Symbol, FrozenStringValue)],
        }

        impl<'a> ArgNames<'a> {
            pub(crate) fn new_unique(names: &'a [(Symbol, FrozenStringValue)]) -> ArgNames<'a> {
                ArgNames { names }
            }
        }

        pub(crate) struct ArgumentsFull<'v, 'a> {
            pub(crate) pos: &'a [Value<'v>],
            pub(crate) named: &'a [Value<'v>],
            pub(crate) names: ArgNames<'a>,
            pub(crate) args: Option<Value<'v>>,
            pub(crate) kwargs: Option<Value<'v>>,
        }
    }

    pub mod frame_span {
        use super::inlined_frame::InlinedFrames;

        /// The number of the word where a node was read, or 0 if it was made.
        #[derive(Copy, Clone, Debug, Default, PartialEq, Eq)]
        pub(crate) struct FrameSpan {
            pub(crate) at: u32,
            pub(crate) inlined_frames: InlinedFrames,
        }

        impl FrameSpan {
            pub(crate) fn at(at: u32) -> FrameSpan {
                FrameSpan { at, inlined_frames: InlinedFrames }
            }
            /// Spans are not compared.
            pub(crate) fn merge(&self, _other: &FrameSpan) -> FrameSpan {
                FrameSpan::default()
            }
        }
    }

    pub mod inlined_frame {
        use super::frame_span::FrameSpan;
        use crate::values::FrozenHeap;
        use crate::values::FrozenValue;

        /// Frames of inlined calls: not kept.
        #[derive(Copy, Clone, Debug, Default, PartialEq, Eq)]
        pub(crate) struct InlinedFrames;

        impl InlinedFrames {
            pub(crate) fn inline_into(&mut self, _span: FrameSpan, _fun: FrozenValue, _alloc: &mut InlinedFrameAlloc) {}
        }

        pub(crate) struct InlinedFrameAlloc;

        impl InlinedFrameAlloc {
            pub(crate) fn new(_heap: &FrozenHeap) -> InlinedFrameAlloc {
                InlinedFrameAlloc
            }
        }
    }

    pub mod slots {
        #[derive(Copy, Clone, Debug, PartialEq, Eq)]
        pub(crate) struct LocalSlotId(pub(crate) u32);
        #[derive(Copy, Clone, Debug, PartialEq, Eq)]
        pub(crate) struct LocalCapturedSlotId(pub(crate) u32);
    }

    pub mod visit_span {
        use super::frame_span::FrameSpan;
        use crate::eval::compiler::expr::ExprCompiled;
        use crate::eval::compiler::span::IrSpanned;

        /// Only reached from `try_inline`, whose use of it (`inline_into`) is empty here.
        pub(crate) trait VisitSpanMut {
            fn visit_spans(&mut self, visitor: &mut impl FnMut(&mut FrameSpan));
        }

        impl VisitSpanMut for IrSpanned<ExprCompiled> {
            fn visit_spans(&mut self, visitor: &mut impl FnMut(&mut FrameSpan)) {
                visitor(&mut self.span)
            }
        }
    }
}

pub mod compiler {
    // The supplied files.
    pub mod args;
    pub mod call;
    pub mod compr;
    pub mod def_inline;
    pub mod expr;
    pub mod expr_bool;
    pub mod stmt;

    pub mod constants {
        use crate::values::FrozenValue;

        /// A built-in function.
        #[derive(Copy, Clone, Debug)]
        pub(crate) struct BuiltinFn(pub(crate) FrozenValue);

        impl PartialEq<BuiltinFn> for FrozenValue {
            fn eq(&self, other: &BuiltinFn) -> bool {
                *self == other.0
            }
        }

        pub(crate) struct Constants {
            pub(crate) fn_len: BuiltinFn,
            pub(crate) fn_type: BuiltinFn,
            pub(crate) fn_isinstance: BuiltinFn,
        }

        impl Constants {
            pub(crate) fn get() -> &'static Constants {
                static CONSTANTS: Constants = Constants {
                    fn_len: BuiltinFn(FrozenValue::FnLen),
                    fn_type: BuiltinFn(FrozenValue::FnType),
                    fn_isinstance: BuiltinFn(FrozenValue::FnIsinstance),
                };
                &CONSTANTS
            }
        }
    }

    pub mod def {
        use std::ops::Index;

        use super::def_inline::InlineDefBody;
        use crate::eval::Arguments;
        use crate::values::FrozenValue;
        use crate::values::Heap;
        use crate::values::KnownType;
        use crate::values::Value;

        /// A `def` expression: its number.
        #[derive(Clone, Debug)]
        pub(crate) struct DefCompiled(pub(crate) u32);

        /// A parameter, as far as `inline_def_body` asks.
        pub(crate) struct Param {
            pub(crate) positional: bool,
        }

        impl Param {
            pub(crate) fn accepts_positional(&self) -> bool {
                self.positional
            }
        }

        /// A list of parameters of which only the first one is kept.
        pub(crate) struct ParamList {
            pub(crate) count: u32,
            pub(crate) first: Param,
        }

        impl ParamList {
            pub(crate) fn len(&self) -> usize {
                self.count as usize
            }
        }

        impl Index<usize> for ParamList {
            type Output = Param;
            fn index(&self, i: usize) -> &Param {
                assert!(i == 0 && self.count > 0);
                &self.first
            }
        }

        pub(crate) struct ParametersCompiled<T> {
            pub(crate) params: ParamList,
            pub(crate) star: bool,
            pub(crate) variables: u32,
            pub(crate) marker: std::marker::PhantomData<T>,
        }

        impl<T> ParametersCompiled<T> {
            pub(crate) fn has_args_or_kwargs(&self) -> bool {
                self.star
            }
            pub(crate) fn count_param_variables(&self) -> u32 {
                self.variables
            }
        }

        /// A frozen `def`. No constant of document 01 is one, so `new` never finds it.
        pub(crate) struct FrozenDef {
            pub(crate) def_info: DefInfo,
            pub(crate) parameters: ParametersSpec,
        }

        pub(crate) struct DefInfo {
            pub(crate) inline_def_body: Option<InlineDefBody>,
        }

        pub(crate) struct ParametersSpec {
            pub(crate) count: usize,
        }

        impl ParametersSpec {
            pub(crate) fn has_args_or_kwargs(&self) -> bool {
                false
            }
            pub(crate) fn len(&self) -> usize {
                self.count
            }
            /// Positional arguments only, as many as the parameters.
            pub(crate) fn collect<'v>(
                &self,
                args: &Arguments<'v, '_>,
                slots: &mut [Option<Value<'v>>],
                _heap: Heap<'v>,
            ) -> crate::Result<()> {
                let a = &args.0;
                if a.pos.len() != self.count || !a.named.is_empty() || a.args.is_some() || a.kwargs.is_some() {
                    return Err(crate::Error);
                }
                for (slot, v) in slots.iter_mut().zip(a.pos) {
                    *slot = Some(*v);
                }
                Ok(())
            }
        }

        impl KnownType for FrozenDef {
            fn from_frozen(_v: FrozenValue) -> Option<&'static FrozenDef> {
                None
            }
        }
    }

    pub mod opt_ctx {
        use std::marker::PhantomData;

        use crate::environment::FrozenModuleData;
        use crate::eval::Evaluator;
        use crate::values::FrozenHeap;
        use crate::values::Heap;

        /// Context of one pass: no frozen module, no parameters.
        #[derive(Default)]
        pub(crate) struct OptCtx<'v, 'a, 'e, 'x> {
            pub(crate) param_count: u32,
            frozen_heap: FrozenHeap,
            module: Option<FrozenModuleData>,
            eval: Evaluator<'v, 'a, 'e>,
            marker: PhantomData<&'x ()>,
        }

        impl<'v, 'a, 'e, 'x> OptCtx<'v, 'a, 'e, 'x> {
            pub(crate) fn heap(&self) -> Heap<'v> {
                Heap::default()
            }
            pub(crate) fn frozen_heap(&self) -> &FrozenHeap {
                &self.frozen_heap
            }
            pub(crate) fn frozen_module(&self) -> Option<&FrozenModuleData> {
                self.module.as_ref()
            }
            pub(crate) fn eval(&mut self) -> Option<&mut Evaluator<'v, 'a, 'e>> {
                Some(&mut self.eval)
            }
        }
    }

    pub mod small_vec_1 {
        use std::mem;

        /// A vector with its own case for one element.
        #[derive(Clone, Debug)]
        pub(crate) enum SmallVec1<T> {
            One(T),
            Vec(Vec<T>),
        }

        impl<T> SmallVec1<T> {
            pub(crate) fn new() -> SmallVec1<T> {
                SmallVec1::Vec(Vec::new())
            }
            pub(crate) fn from_vec(mut v: Vec<T>) -> SmallVec1<T> {
                if v.len() == 1 { SmallVec1::One(v.remove(0)) } else { SmallVec1::Vec(v) }
            }
            pub(crate) fn as_slice(&self) -> &[T] {
                match self {
                    SmallVec1::One(x) => std::slice::from_ref(x),
                    SmallVec1::Vec(v) => v,
                }
            }
            pub(crate) fn extend(&mut self, right: SmallVec1<T>) {
                *self = match (mem::replace(self, SmallVec1::new()), right) {
                    (SmallVec1::Vec(left), right) if left.is_empty() => right,
                    (left, SmallVec1::Vec(right)) if right.is_empty() => left,
                    (SmallVec1::One(x), SmallVec1::One(y)) => SmallVec1::Vec(vec![x, y]),
                    (SmallVec1::One(x), SmallVec1::Vec(mut right)) => {
                        right.insert(0, x);
                        SmallVec1::Vec(right)
                    }
                    (SmallVec1::Vec(mut left), SmallVec1::One(y)) => {
                        left.push(y);
                        SmallVec1::Vec(left)
                    }
                    (SmallVec1::Vec(mut left), SmallVec1::Vec(right)) => {
                        left.extend(right);
                        SmallVec1::Vec(left)
                    }
                };
            }
        }
    }

    pub mod span {
        use std::ops::Deref;
        use std::ops::DerefMut;

        use crate::eval::runtime::frame_span::FrameSpan;

        /// A node with its span.
        #[derive(Copy, Clone, Debug)]
        pub(crate) struct IrSpanned<T> {
            pub(crate) span: FrameSpan,
            pub(crate) node: T,
        }

        impl<T> Deref for IrSpanned<T> {
            type Target = T;
            fn deref(&self) -> &T {
                &self.node
            }
        }

        impl<T> DerefMut for IrSpanned<T> {
            fn deref_mut(&mut self) -> &mut T {
                &mut self.node
            }
        }
    }
}
