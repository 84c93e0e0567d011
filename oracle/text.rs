// The words and numbers of request and answer lines, as the protocol page has them.

/// Tokens are parted by spaces, and by nothing else.
pub fn tokens(line: &[u8]) -> Vec<&[u8]> {
    line.split(|c| *c == b' ').filter(|t| !t.is_empty()).collect()
}

/// A float: 16 hexadecimal digits before anything else, so that 16 decimal digits are bits too.
pub fn number(token: &[u8]) -> Option<f64> {
    match token {
        b"NaN" => Some(f64::NAN),
        b"inf" => Some(f64::INFINITY),
        b"-inf" => Some(f64::NEG_INFINITY),
        _ => hexadecimal(token).or_else(|| decimal(token)),
    }
}

fn hexadecimal(token: &[u8]) -> Option<f64> {
    if token.len() != 16 {
        return None;
    }
    let bits = token.iter().try_fold(0, |sum: u64, c| Some(sum << 4 | digit(*c)? as u64))?;
    Some(f64::from_bits(bits))
}

/// A hexadecimal digit of either case.
fn digit(c: u8) -> Option<u8> {
    (c as char).to_digit(16).map(|d| d as u8)
}

/// Bytes: pairs of hexadecimal digits, or `-` for none.
pub fn pairs(token: &[u8]) -> Option<Vec<u8>> {
    match token {
        b"-" => Some(Vec::new()),
        _ if token.len() % 2 == 1 => None,
        _ => token.chunks(2).map(|pair| Some(digit(pair[0])? << 4 | digit(pair[1])?)).collect(),
    }
}

/// At most 15 digits after the leading zeros and at most 22 after the point: a whole number and a power of ten that a
/// double holds, so one division gives the nearest double, which is what the library's parse gives for any decimal.
fn decimal(token: &[u8]) -> Option<f64> {
    let digits = token.strip_prefix(b"-").unwrap_or(token);
    let mut parts = digits.splitn(2, |c| *c == b'.');
    let (whole, fraction) = (parts.next()?, parts.next());
    let good = |part: &[u8]| !part.is_empty() && part.iter().all(u8::is_ascii_digit);
    if !good(whole) || fraction.is_some_and(|f| !good(f)) {
        return None;
    }
    let counted = digits.iter().filter(|c| **c != b'.').skip_while(|c| **c == b'0').count();
    if counted > 15 || fraction.is_some_and(|f| f.len() > 22) {
        return None;
    }
    std::str::from_utf8(token).ok()?.parse().ok()
}

/// A count or an order: 1 to 9 decimal digits.
pub fn count(token: &[u8]) -> Option<usize> {
    if token.is_empty() || token.len() > 9 || !token.iter().all(u8::is_ascii_digit) {
        return None;
    }
    Some(token.iter().fold(0, |sum, c| sum * 10 + (c - b'0') as usize))
}

/// A float in an answer: the digits of its bits, or NaN.
pub fn push_float(out: &mut Vec<u8>, x: f64) {
    if x.is_nan() {
        return out.extend_from_slice(b"NaN");
    }
    let bits = x.to_bits();
    out.extend((0..16).map(|i| b"0123456789ABCDEF"[(bits >> (60 - 4 * i)) as usize & 15]));
}

/// A space, then the float.
pub fn push_floats(out: &mut Vec<u8>, xs: impl IntoIterator<Item = f64>) {
    for x in xs {
        out.push(b' ');
        push_float(out, x);
    }
}
