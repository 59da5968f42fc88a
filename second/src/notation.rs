//! How texts stand in the vector files.

/// The text in double quotes. Every byte has one form only, so that equal
/// texts are equal lines.
pub fn quoted(text: &[u8]) -> String {
    let inner: String = text.iter().map(|&byte| escaped(byte)).collect();
    format!("\"{inner}\"")
}

fn escaped(byte: u8) -> String {
    match byte {
        b'\n' => "\\n".into(),
        b'\r' => "\\r".into(),
        b'\t' => "\\t".into(),
        b'"' => "\\\"".into(),
        b'\\' => "\\\\".into(),
        0x20..=0x7E => char::from(byte).into(),
        _ => format!("\\x{byte:02X}"),
    }
}

#[cfg(test)]
mod tests {
    use super::*;

    #[test]
    fn escapes() {
        assert_eq!(quoted(b""), r#""""#);
        assert_eq!(quoted(b"a ~"), r#""a ~""#);
        assert_eq!(quoted(b"\n\r\t\"\\"), r#""\n\r\t\"\\""#);
        assert_eq!(quoted(&[0x00, 0x1F, 0x7F, 0x80, 0xFF]), r#""\x00\x1F\x7F\x80\xFF""#);
    }

    #[test]
    fn every_byte_has_its_own_form() {
        let forms: std::collections::HashSet<_> = (0..=255).map(escaped).collect();
        assert_eq!(forms.len(), 256);
    }
}
