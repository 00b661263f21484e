//! The crate's types by the set numbers of docs/RULES.md, 2.1, and hex text for the line protocol.
pub use frodo_kem_rs::hazmat::*;

#[cfg(frodo_archive)]
pub mod ours;

/// Runs `$body` with the type `$kem` of set `$set`, or gives `$other` for a number that is no set.
#[macro_export]
macro_rules! with_set {
    ($set:expr, $kem:ident => $body:expr, else $other:expr) => {
        match $set {
            1 => { type $kem = $crate::FrodoKem640Shake; $body }
            2 => { type $kem = $crate::FrodoKem976Shake; $body }
            3 => { type $kem = $crate::FrodoKem1344Shake; $body }
            _ => $other,
        }
    };
}

/// The bytes of hex digits; `-` is none.
pub fn unhex(text: &str) -> Result<Vec<u8>, String> {
    if text == "-" {
        return Ok(Vec::new());
    }
    if text.len() % 2 != 0 {
        return Err(format!("{} hex digits, expected an even number", text.len()));
    }
    (0..text.len())
        .step_by(2)
        .map(|i| u8::from_str_radix(&text[i..i + 2], 16).map_err(|e| format!("{}: {e}", &text[i..i + 2])))
        .collect()
}

/// The little-endian words of hex digits.
pub fn unhex_words(text: &str) -> Result<Vec<u16>, String> {
    let bytes = unhex(text)?;
    if bytes.len() % 2 != 0 {
        return Err(format!("{} bytes, expected whole words", bytes.len()));
    }
    Ok(bytes.chunks_exact(2).map(|c| u16::from_le_bytes([c[0], c[1]])).collect())
}

/// Bytes as hex digits; `-` for none.
pub fn hex(bytes: &[u8]) -> String {
    if bytes.is_empty() {
        return "-".into();
    }
    bytes.iter().map(|b| format!("{b:02x}")).collect()
}

/// Words as the hex digits of their little-endian bytes.
pub fn hex_words(words: &[u16]) -> String {
    hex(&words.iter().flat_map(|w| w.to_le_bytes()).collect::<Vec<u8>>())
}
