//! Bytes as hex digits.

/// The bytes behind hex digits, two a byte; white space may stand between bytes.
pub fn read(text: &str) -> Result<Vec<u8>, String> {
    let mut bytes = Vec::new();
    for word in text.split_whitespace() {
        let (pairs, []) = word.as_bytes().as_chunks::<2>() else {
            return Err(format!("{word} is not two hex digits a byte"));
        };
        for &[high, low] in pairs {
            match (digit(high), digit(low)) {
                (Some(high), Some(low)) => bytes.push(high << 4 | low),
                _ => return Err(format!("{word} has other than hex digits")),
            }
        }
    }
    Ok(bytes)
}

fn digit(byte: u8) -> Option<u8> {
    let digit = char::from(byte).to_digit(16)?;
    Some(digit as u8)
}

/// The bytes as hex digits, with this between them.
pub fn written(bytes: &[u8], between: &str) -> String {
    let words: Vec<String> = bytes.iter().map(|byte| format!("{byte:02x}")).collect();
    words.join(between)
}
