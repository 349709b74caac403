// Written by generate/erase.py from crates/key_wrap_core/src/agreed_form.rt, which has the contracts.

//! The forms with the initial value that both ends agreed on, and the change from one to another.

use crate::proved::key_wrap_core::forms::Form;
use crate::proved::key_wrap_core::initial_value::InitialValue;
use crate::proved::key_wrap_core::rewrapping::RewrapForms;

/// A form of key wrap with its initial value.
#[derive(Clone, Copy, Debug)]
pub enum AgreedForm {
    /// RFC 3394, with this initial value (section 2.2.3).
    Plain(InitialValue),
    /// RFC 5649: the initial value holds the key's length.
    Padded,
}

impl AgreedForm {
    /// The form with the default initial value.
    pub fn by_default(form: Form) -> AgreedForm {
        match form {
            Form::Plain => AgreedForm::Plain(InitialValue::default()),
            Form::Padded => AgreedForm::Padded,
        }
    }
}

impl RewrapForms {
    /// From one form to another, with the default initial value.
    pub fn by_default(old: Form, new: Form) -> RewrapForms {
        RewrapForms::Changed {
            old: AgreedForm::by_default(old),
            new: AgreedForm::by_default(new),
        }
    }
}
