//! Numbers and bytes as they stand in a script.

/// The most bytes that one BYTES can give: half the longest line.
pub const MOST_BYTES: usize = 16_384;

/// Decimal: 1 to 20 digits, at most `top`.
pub fn decimal(token: &[u8], top: u64) -> Option<u64> {
    if token.is_empty() || token.len() > 20 {
        return None;
    }
    let mut value = 0u64;
    for &digit in token {
        let digit = digit.checked_sub(b'0').filter(|&digit| digit < 10)?;
        value = value.checked_mul(10)?.checked_add(u64::from(digit))?;
    }
    (value <= top).then_some(value)
}

pub fn decimal8(token: &[u8]) -> Option<u8> {
    decimal(token, u8::MAX.into()).map(|value| value as u8)
}

pub fn decimal16(token: &[u8]) -> Option<u16> {
    decimal(token, u16::MAX.into()).map(|value| value as u16)
}

pub fn decimal32(token: &[u8]) -> Option<u32> {
    decimal(token, u32::MAX.into()).map(|value| value as u32)
}

pub fn decimal64(token: &[u8]) -> Option<usize> {
    decimal(token, u64::MAX).map(|value| value as usize)
}

fn hex_digit(character: u8) -> Option<u8> {
    match character {
        b'0'..=b'9' => Some(character - b'0'),
        b'A'..=b'F' => Some(character - b'A' + 10),
        b'a'..=b'f' => Some(character - b'a' + 10),
        _ => None,
    }
}

/// Hexadecimal: 1 to 8 digits of either case.
pub fn hex32(token: &[u8]) -> Option<u32> {
    if token.is_empty() || token.len() > 8 {
        return None;
    }
    let mut value = 0;
    for &character in token {
        value = value << 4 | u32::from(hex_digit(character)?);
    }
    Some(value)
}

pub fn hex16(token: &[u8]) -> Option<u16> {
    hex32(token)?.try_into().ok()
}

pub fn hex8(token: &[u8]) -> Option<u8> {
    hex32(token)?.try_into().ok()
}

fn pair(pair: &[u8]) -> Option<u8> {
    Some(hex_digit(pair[0])? << 4 | hex_digit(pair[1])?)
}

/// BYTES: `-`, or hex pairs, or one pair, `x` and a decimal count.
pub fn bytes(token: &[u8]) -> Option<Vec<u8>> {
    if token == b"-" {
        return Some(Vec::new());
    }
    if token.len() > 3 && token[2] == b'x' {
        let count = decimal(&token[3..], MOST_BYTES as u64)?;
        return Some(vec![pair(token)?; count as usize]);
    }
    if token.is_empty() || token.len() % 2 == 1 {
        return None;
    }
    token.chunks(2).map(pair).collect()
}

/// An option `key=value`: its two sides.
pub fn option(token: &[u8]) -> Option<(&[u8], &[u8])> {
    let at = token.iter().position(|&character| character == b'=')?;
    Some((&token[..at], &token[at + 1..]))
}

/// Puts an option's value where none stands yet: no option comes twice.
pub fn once<T>(place: &mut Option<T>, value: T) -> Option<()> {
    place.is_none().then(|| *place = Some(value))
}
