//! Stands in for the name patterns: those that the original's own messages state.

fn matches(text: &str, most: usize, first: fn(u8) -> bool, rest: fn(u8) -> bool) -> bool {
    let bytes = text.as_bytes();
    (1..=most).contains(&bytes.len()) && first(bytes[0]) && bytes[1..].iter().all(|&b| rest(b))
}

fn lower(byte: u8) -> bool {
    byte.is_ascii_lowercase() || byte.is_ascii_digit()
}

fn id(byte: u8) -> bool {
    byte.is_ascii_alphanumeric() || byte == b'_' || byte == b'-'
}

fn name(byte: u8) -> bool {
    id(byte) || byte == b'.'
}

/// `[A-Za-z0-9_.-]{1,128}`
pub(crate) fn is_name(text: &str) -> bool {
    matches(text, 128, name, name)
}

/// `[A-Za-z0-9_-]{1,64}`
pub(crate) fn is_id(text: &str) -> bool {
    matches(text, 64, id, id)
}

/// `[A-Za-z0-9_.-]{1,64}`
pub(crate) fn is_signal(text: &str) -> bool {
    matches(text, 64, name, name)
}

/// `[a-z0-9][a-z0-9-]{0,63}`
pub(crate) fn is_outcome(text: &str) -> bool {
    matches(text, 64, lower, |byte| lower(byte) || byte == b'-')
}

/// `[a-z0-9][a-z0-9.-]{0,63}`
pub(crate) fn is_error_code(text: &str) -> bool {
    matches(text, 64, lower, |byte| {
        lower(byte) || byte == b'-' || byte == b'.'
    })
}
