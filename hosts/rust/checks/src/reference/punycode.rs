//! Punycode decoding, from section 6.2 of RFC 3492.
//!
//! The RFC fails where a number overflows. Here numbers are exact: one that would make a code
//! point above 10FFFF is noticed before it gets large.

// "Parameter values for Punycode" (section 5).
const BASE: u64 = 36;
const T_MIN: u64 = 1;
const T_MAX: u64 = 26;
const SKEW: u64 = 38;
const DAMP: u64 = 700;
const INITIAL_BIAS: u64 = 72;
const INITIAL_N: u64 = 128;
const DELIMITER: u8 = b'-';

/// The first number that is no code point.
const CODE_POINTS: u64 = 0x11_0000;

/// Why there is nothing decoded.
#[derive(Debug, PartialEq, Eq)]
pub enum Failure {
    /// The input isn't Punycode, or has a surrogate or a number above 10FFFF.
    Undecodable,
    /// There would be more code points than were asked for; or it is undecodable after these.
    Longer,
}

/// What stands behind a label's `xn--`, decoded, if that is at most `most` code points.
pub fn decode(input: &[u8], most: usize) -> Result<Vec<char>, Failure> {
    // All before the last delimiter is basic. A delimiter with nothing before it isn't consumed.
    let (basic, mut rest) = match input.iter().rposition(|&b| b == DELIMITER) {
        None | Some(0) => (&input[..0], input),
        Some(last) => (&input[..last], &input[last + 1..]),
    };
    if !basic.is_ascii() {
        return Err(Failure::Undecodable);
    }
    let mut output: Vec<char> = basic.iter().map(|&b| char::from(b)).collect();
    let mut n = INITIAL_N;
    let mut i = 0;
    let mut bias = INITIAL_BIAS;
    while !rest.is_empty() {
        if output.len() >= most {
            return Err(Failure::Longer);
        }
        let places = output.len() as u64 + 1;
        // With i so large the next code point would be above 10FFFF.
        let too_large = (CODE_POINTS - n) * places;
        let old_i = i;
        let mut w = 1;
        let mut k = BASE;
        loop {
            let (&byte, after) = rest.split_first().ok_or(Failure::Undecodable)?;
            rest = after;
            let digit = digit(byte).ok_or(Failure::Undecodable)?;
            // i never falls, and is at least the last w, as the last digit wasn't 0: so w can't
            // get out of hand either.
            i += digit * w;
            if i >= too_large {
                return Err(Failure::Undecodable);
            }
            let t = k.saturating_sub(bias).clamp(T_MIN, T_MAX);
            if digit < t {
                break;
            }
            w *= BASE - t;
            k += BASE;
        }
        bias = adapt(i - old_i, places, old_i == 0);
        n += i / places;
        i %= places;
        // Not a surrogate.
        let point = char::from_u32(n as u32).ok_or(Failure::Undecodable)?;
        output.insert(i as usize, point);
        i += 1;
    }
    if output.len() > most {
        return Err(Failure::Longer);
    }
    Ok(output)
}

/// Digits are letters in either case, worth 0 to 25, and 0 to 9, worth 26 to 35.
fn digit(byte: u8) -> Option<u64> {
    match byte {
        b'a'..=b'z' => Some(u64::from(byte - b'a')),
        b'A'..=b'Z' => Some(u64::from(byte - b'A')),
        b'0'..=b'9' => Some(u64::from(byte - b'0') + 26),
        _ => None,
    }
}

/// "Bias adaptation function" (section 6.1).
fn adapt(delta: u64, points: u64, first: bool) -> u64 {
    let mut delta = delta / if first { DAMP } else { 2 };
    delta += delta / points;
    let mut k = 0;
    while delta > (BASE - T_MIN) * T_MAX / 2 {
        delta /= BASE - T_MIN;
        k += BASE;
    }
    k + (BASE - T_MIN + 1) * delta / (delta + SKEW)
}
