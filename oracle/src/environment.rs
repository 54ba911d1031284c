use crate::environment::slots::ModuleSlotId;
use crate::values::FrozenHeap;
use crate::values::FrozenValue;

pub mod slots {
    /// A module slot. The second number is a passenger: the text that the words
    /// have after a module target of AssignModify, for which the Rust's
    /// `AssignModifyLhs::Module` has no room.
    #[derive(Copy, Clone, Debug, PartialEq, Eq)]
    pub struct ModuleSlotId(pub u32, pub u32);
}

/// A frozen module: here its slots have no known values.
#[derive(Debug)]
pub struct FrozenModuleData;

impl FrozenModuleData {
    pub fn get_slot(&self, _slot: ModuleSlotId) -> Option<FrozenValue> {
        None
    }
}

/// `eval.module_env`.
#[derive(Debug, Default)]
pub struct ModuleEnv {
    pub heap: FrozenHeap,
}

impl ModuleEnv {
    pub fn frozen_heap(&self) -> &FrozenHeap {
        &self.heap
    }
}
