//! What the unchanged source names and the files at hand do not have. None of it is reached by the harness: a call
//! stops the run.

/// Suggestions for the names of imports.
pub mod errors {
    pub fn edit_distance(_a: &str, _b: &str) -> usize {
        unreachable!("a book has no imports")
    }
}

/// Types of other schemas, brought in by imports.
pub mod remap {
    use crate::ir::{ResolvedType, TypeDef, TypeId, TypeRegistry};
    use std::collections::HashMap;

    pub fn type_def_name(_definition: &TypeDef) -> &str {
        unreachable!("a book has no imports")
    }

    pub fn clone_types_into_unbound(
        _from: &TypeRegistry,
        _ids: &[TypeId],
        _into: &mut TypeRegistry,
    ) -> HashMap<TypeId, TypeId> {
        unreachable!("a book has no imports")
    }

    pub fn clone_resolved_type_into_unbound(
        _from: &TypeRegistry,
        _target: &ResolvedType,
        _into: &mut TypeRegistry,
    ) -> ResolvedType {
        unreachable!("a book has no imports")
    }
}

/// The hash of a compiled schema.
pub mod canonical {
    pub fn schema_hash(_schema: &crate::ir::CompiledSchema) -> [u8; 32] {
        unreachable!("no schema is hashed")
    }
}
