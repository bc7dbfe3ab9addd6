//! A stand-in: the TypeScript checks are left out.

use crate::builder::SemanticBuilder;

macro_rules! left_out {
    ($($name:ident)*) => {
        $(pub fn $name<T>(_node: T, _ctx: &SemanticBuilder<'_>) {})*
    };
}

left_out! {
    check_ts_export_assignment_in_program check_class check_method_definition check_formal_parameters
    check_ts_type_annotation check_ts_type_predicate check_ts_external_module_declaration
    check_ts_namespace_declaration check_ts_global_declaration check_ts_enum_declaration check_ts_infer_type
}

pub fn check_for_statement_left<T>(_left: T, _is_for_in: bool, _ctx: &SemanticBuilder<'_>) {}
