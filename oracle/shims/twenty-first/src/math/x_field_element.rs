//! Stands for `x_field_element.rs`, cut to what `BFieldElement::lift` names; nothing that is compared calls it.

use super::b_field_element::BFieldElement;

pub struct XFieldElement;

impl XFieldElement {
    pub const fn new_const(_: BFieldElement) -> Self {
        XFieldElement
    }
}
