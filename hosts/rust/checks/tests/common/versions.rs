//! Header and method versions on each side of what a digit run tells (02, ticket [3]): the number
//! up to 999,999, and "large" above that, leading zeros not counted.

use super::{gap, space, Rng};

/// A digit run of one of the kinds.
pub struct Version {
    pub kind: &'static str,
    pub run: Vec<u8>,
    /// The digits that count, which a `v` line shows.
    pub counted: Vec<u8>,
}

pub const KINDS: &[&str] = &[
    "0",
    "1",
    "2 to 999,998",
    "999,999",
    "1,000,000",
    "above 1,000,000",
    "1 and a power of two",
    "60,000 digits",
];

/// Digits of which the first isn't 0.
fn many(rng: &mut Rng, length: usize) -> Vec<u8> {
    let mut digits = vec![rng.between(b'1'.into(), b'9'.into()) as u8];
    digits.resize_with(length, || rng.between(b'0'.into(), b'9'.into()) as u8);
    digits
}

pub fn version(rng: &mut Rng) -> Version {
    let kind = rng.pick(KINDS);
    let mut zeros = rng.pick(&[0, 0, 0, 1, 2, 5, 6, 7, 30]);
    let counted = match kind {
        "0" => b"0".to_vec(),
        "1" => b"1".to_vec(),
        "2 to 999,998" => rng.between(2, 999_998).to_string().into_bytes(),
        "999,999" => b"999999".to_vec(),
        "1,000,000" => b"1000000".to_vec(),
        "above 1,000,000" => {
            let length = rng.between(7, 40);
            let mut digits = many(rng, length);
            digits[length - 1] = rng.pick(b"19");
            digits
        }
        "1 and a power of two" => rng
            .pick(&["257", "65537", "4294967297", "18446744073709551617"])
            .as_bytes()
            .to_vec(),
        _ => {
            // Most of them don't count, or all of them do.
            zeros = rng.pick(&[0, 30_000, 59_993]);
            many(rng, 60_000 - zeros)
        }
    };
    let mut run = vec![b'0'; zeros];
    run.extend(&counted);
    Version { kind, run, counted }
}

impl Version {
    pub fn is_one(&self) -> bool {
        self.counted == b"1"
    }

    /// A body with this header version, and its number and report.
    pub fn in_header(&self, rng: &mut Rng) -> (Vec<u8>, u8, Vec<u8>) {
        let mut body = b"a".to_vec();
        gap(rng, &mut body);
        body.extend(&self.run);
        body.extend(b"; none");
        if self.is_one() {
            (body, 0, b"id\ta\nnone\n".to_vec())
        } else {
            (body, 8, [b"id\ta\nv\t", &self.counted[..], b"\n"].concat())
        }
    }

    /// A body with a result of this method version, and its number and report.
    pub fn in_method(&self, rng: &mut Rng) -> (Vec<u8>, u8, Vec<u8>) {
        let mut body = b"a; spf".to_vec();
        space(rng, &mut body);
        body.push(b'/');
        space(rng, &mut body);
        body.extend(&self.run);
        space(rng, &mut body);
        body.extend(b"=pass");
        let lines: &[u8] = if self.is_one() {
            b"m\tspf\tpass\n"
        } else {
            b""
        };
        (body, 0, [b"id\ta\n", lines].concat())
    }
}
