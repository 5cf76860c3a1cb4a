//! Stands for the crate root of twenty-first; the three modules it takes from `published/` are untouched.

pub mod error;

pub mod math {
    #[rustfmt::skip]
    #[path = "../../../../published/b_field_element.rs"]
    pub mod b_field_element;
    #[rustfmt::skip]
    #[path = "../../../../published/lattice.rs"]
    pub mod lattice;
    #[rustfmt::skip]
    #[path = "../../../../published/traits.rs"]
    pub mod traits;
    pub mod x_field_element;
}
