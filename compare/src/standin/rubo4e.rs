//! Stands in for the crate `rubo4e`: identifier types whose `new` always fails.
//! Only the six conditions that the build shuts off would ask them.

pub mod prelude {
    /// The error of every identifier.
    #[derive(Debug)]
    pub struct IdentifierError;

    impl std::fmt::Display for IdentifierError {
        fn fmt(&self, f: &mut std::fmt::Formatter<'_>) -> std::fmt::Result {
            f.write_str("no identifiers here")
        }
    }
}

pub mod identifiers {
    use super::prelude::IdentifierError;

    macro_rules! without_values {
        ($($name:ident)*) => {$(
            pub enum $name {}

            impl $name {
                pub fn new(_: &str) -> Result<Self, IdentifierError> {
                    Err(IdentifierError)
                }
            }
        )*};
    }

    without_values!(MaloId NeloId SrId TrId Zaehlpunktbezeichnung);
}
