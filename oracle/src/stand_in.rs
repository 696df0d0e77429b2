//! A logic of which the published files need the name alone.

#[macro_export]
macro_rules! name_only
{
    (@logic $logic:ident, $self:ident, $name:expr) =>
    {
        impl crate::logic::Logic for $logic
        {
            fn get_name(&$self) -> crate::logic::LogicName { $name }
            fn as_any(&self) -> &dyn std::any::Any { self }
            fn get_semantics(&self) -> Box<dyn crate::semantics::Semantics> { unreachable!() }
            fn get_parser_syntax(&self) -> Vec<crate::parser::token_types::TokenTypeID> { unreachable!() }
            fn get_rules(&self) -> crate::logic::LogicRuleCollection { unreachable!() }
            fn get_modality_ref(&self) -> Option<crate::logic::common_modal_logic::ModalityRef> { unreachable!() }
        }
    };

    ($logic:ident = $name:literal) =>
    {
        pub struct $logic {}
        crate::name_only!(@logic $logic, self, crate::logic::LogicName::of($name));
    };

    ($logic:ident { $($make:ident = $name:literal),* }) =>
    {
        pub struct $logic { name : crate::logic::LogicName }

        #[allow(non_snake_case)]
        impl $logic
        {
            $(pub fn $make() -> $logic { $logic { name:crate::logic::LogicName::of($name) } })*
        }

        crate::name_only!(@logic $logic, self, self.name.clone());
    };
}
