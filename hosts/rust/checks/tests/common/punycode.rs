//! Punycode encoding, from section 6.3 of RFC 3492. With exact numbers, so that it also encodes
//! what isn't a code point.

const BASE: u128 = 36;
const T_MIN: u128 = 1;
const T_MAX: u128 = 26;

/// Encodes code points, or any numbers.
pub fn encode(points: &[u128]) -> Vec<u8> {
    let is_basic = |&point: &u128| point < 128;
    let mut out: Vec<u8> = points
        .iter()
        .copied()
        .filter(is_basic)
        .map(|point| point as u8)
        .collect();
    let basic = out.len() as u128;
    if basic > 0 {
        out.push(b'-');
    }
    let mut n = 128;
    let mut delta = 0;
    let mut bias = 72;
    let mut handled = basic;
    while handled < points.len() as u128 {
        let next = points.iter().copied().filter(|&point| point >= n).min();
        let next = next.expect("some are left");
        delta += (next - n) * (handled + 1);
        n = next;
        for &point in points {
            if point < n {
                delta += 1;
            }
            if point == n {
                number(delta, bias, &mut out);
                bias = adapt(delta, handled + 1, handled == basic);
                delta = 0;
                handled += 1;
            }
        }
        delta += 1;
        n += 1;
    }
    out
}

/// The code points of a text.
pub fn points(text: &str) -> Vec<u128> {
    text.chars().map(|c| u128::from(u32::from(c))).collect()
}

/// The A-label of a label.
pub fn a_label(label: &str) -> Vec<u8> {
    [b"xn--", &encode(&points(label))[..]].concat()
}

/// A number as a run of digits.
fn number(mut q: u128, bias: u128, out: &mut Vec<u8>) {
    const DIGITS: &[u8; 36] = b"abcdefghijklmnopqrstuvwxyz0123456789";
    let mut k = BASE;
    loop {
        let t = k.saturating_sub(bias).clamp(T_MIN, T_MAX);
        if q < t {
            out.push(DIGITS[q as usize]);
            return;
        }
        out.push(DIGITS[(t + (q - t) % (BASE - t)) as usize]);
        q = (q - t) / (BASE - t);
        k += BASE;
    }
}

fn adapt(delta: u128, points: u128, first: bool) -> u128 {
    let mut delta = delta / if first { 700 } else { 2 };
    delta += delta / points;
    let mut k = 0;
    while delta > (BASE - T_MIN) * T_MAX / 2 {
        delta /= BASE - T_MIN;
        k += BASE;
    }
    k + (BASE - T_MIN + 1) * delta / (delta + 38)
}
