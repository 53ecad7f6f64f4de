//! Which of document 01's numbers a failure of the original stands for.

use crate::Failure;

/// The call that failed.
#[derive(Clone, Copy, Debug, PartialEq, Eq)]
pub enum Call {
    Register,
    ControlWord,
    UpdateEfer,
    Setup,
    PortEdit,
    MsrEdit,
    InjectInterrupt,
    /// With the full exit reason.
    Exit(u32),
    Gla2gva,
}

/// The number, or `None` where the original fails for a reason that document 01 has no number for.
pub fn refusal_number(call: Call, failure: &Failure) -> Option<u32> {
    let text = match failure {
        Failure::Panicked(text) => text,
        Failure::Error { message, .. } => message,
        _ => return None,
    };
    let overflow = text.starts_with("attempt to add with overflow");
    let number = match call {
        Call::Register => 23,
        Call::ControlWord | Call::UpdateEfer | Call::Setup => return control_number(text),
        Call::PortEdit => 10,
        Call::MsrEdit => 11,
        Call::InjectInterrupt => 12,
        Call::Gla2gva => 17,
        Call::Exit(_) if text.starts_with("Unknown VM-exit reason") => 14,
        Call::Exit(reason) => match reason & 0xFFFF {
            1 if text.contains("int_info.valid") => 16,
            28 if text.starts_with("Guest's access to cr not allowed") => 18,
            28 if text.contains("error Unsupported") => 8,
            44 => 21,
            55 if text.contains("error Unsupported") => 20,
            55 if text.contains("error InvalidInput") => 19,
            _ if overflow => 17,
            _ => return None,
        },
    };
    Some(number)
}

fn control_number(text: &str) -> Option<u32> {
    if text.starts_with("assertion") {
        Some(6)
    } else if text.starts_with("can not set and clear") {
        Some(7)
    } else if text.starts_with("can not set bits") {
        Some(8)
    } else if text.starts_with("can not clear bits") {
        Some(9)
    } else {
        None
    }
}
