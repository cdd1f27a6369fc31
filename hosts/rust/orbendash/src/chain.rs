//! ARC chains.

use crate::raw::{self, number, outcome, reason, status};
use crate::Refusal;

/// What the gateway found of the signatures of one instance.
#[repr(transparent)]
#[derive(Clone, Copy, Debug, Default, PartialEq, Eq, Hash)]
pub struct Verdict(u8);

impl Verdict {
    /// Whether the instance's ARC-Seal verified, and its ARC-Message-Signature.
    #[must_use]
    pub const fn new(seal: bool, signature: bool) -> Verdict {
        Verdict(2 * seal as u8 + signature as u8)
    }

    /// Whether the seal verified.
    #[must_use]
    pub const fn seal(self) -> bool {
        self.0 & 2 != 0
    }

    /// Whether the message signature verified.
    #[must_use]
    pub const fn signature(self) -> bool {
        self.0 & 1 != 0
    }
}

/// What became of the ARC fields of a block.
#[must_use]
#[derive(Clone, Copy, Debug, PartialEq, Eq, Hash)]
pub struct Judgement {
    /// Whether they form a chain.
    pub outcome: Outcome,
    /// What the chain says by the verdicts.
    pub status: Status,
}

/// Whether the ARC fields of a block form a chain.
#[must_use]
#[derive(Clone, Copy, Debug, PartialEq, Eq, Hash)]
pub enum Outcome {
    /// There are none.
    None,
    /// The chain is broken.
    Failed(Reason),
    /// The chain stands.
    Built {
        /// Its highest instance.
        instances: usize,
    },
}

/// Why a chain failed: the first that applies.
#[derive(Clone, Copy, Debug, PartialEq, Eq, Hash)]
pub enum Reason {
    /// (a) A field can't be read.
    Unreadable {
        /// The first such field's number among all fields of the block, from 1.
        field: usize,
    },
    /// (b) A kind comes twice at one instance.
    Repeated {
        /// The number of the first field that repeats one.
        field: usize,
    },
    /// (c) A kind is missing at an instance up to the highest.
    Missing,
    /// (d) The seal at the highest instance has cv fail.
    CvFail,
    /// (e) The seal at 1 isn't cv none, or a later one isn't cv pass.
    CvOrder,
}

/// What a chain says by the verdicts.
#[must_use]
#[derive(Clone, Copy, Debug, PartialEq, Eq, Hash)]
pub enum Status {
    /// There is no chain.
    None,
    /// It is built, all its seals are good, and so is its newest signature.
    Pass {
        /// 0 if all signatures are good, else one more than the highest instance with a bad one.
        oldest: usize,
    },
    /// Any other.
    Fail,
}

/// Judges the ARC chain of a header block by the verdicts on its signatures, one for each instance
/// from 1. They are read only if the chain is built, and then it has as many instances as the block
/// has ARC-Seal fields.
///
/// # Errors
///
/// The first that applies of [`TooLong`](Refusal::TooLong), in one walk from the front
/// [`BadLineEnd`](Refusal::BadLineEnd), [`BadLine`](Refusal::BadLine) and
/// [`TooManyFields`](Refusal::TooManyFields), and then [`BadVerdicts`](Refusal::BadVerdicts).
///
/// ```
/// use orbendash::{fields, judge, Outcome, Reason, Status, Verdict};
///
/// let block = b"ARC-Seal: i=1; a=rsa-sha256; cv=none; d=a.example; s=k; b=AA\r\n\
///     ARC-Message-Signature: i=1; a=rsa-sha256; d=a.example; s=k; h=from; bh=AA; b=AA\r\n\
///     ARC-Authentication-Results: i=1; a.example; none\r\n";
/// let seals = fields(block).filter(|f| f.is_ok_and(|f| f.is_named("ARC-Seal"))).count();
/// let verdicts = vec![Verdict::new(true, true); seals];
/// let judged = judge(block, &verdicts)?;
/// assert_eq!(judged.outcome, Outcome::Built { instances: 1 });
/// assert_eq!(judged.status, Status::Pass { oldest: 0 });
///
/// let broken = judge(&block[..62], &verdicts)?;
/// assert_eq!(broken.outcome, Outcome::Failed(Reason::Missing));
/// assert_eq!(broken.status, Status::Fail);
/// # Ok::<(), orbendash::Refusal>(())
/// ```
pub fn judge(block: &[u8], verdicts: &[Verdict]) -> Result<Judgement, Refusal> {
    // SAFETY: a verdict is one byte (`repr(transparent)`), so these are as many bytes, lent for as
    // long.
    let bytes = unsafe { std::slice::from_raw_parts(verdicts.as_ptr().cast(), verdicts.len()) };
    let answer = raw::judge(block, bytes);
    if answer.number != number::DONE {
        return Err(Refusal::of(answer.number, answer.place));
    }
    Ok(Judgement {
        outcome: match answer.outcome {
            outcome::NONE => Outcome::None,
            outcome::BUILT => Outcome::Built {
                instances: answer.instances,
            },
            _ => Outcome::Failed(match answer.reason {
                reason::UNREADABLE => Reason::Unreadable {
                    field: answer.field,
                },
                reason::REPEATED => Reason::Repeated {
                    field: answer.field,
                },
                reason::MISSING => Reason::Missing,
                reason::CV_FAIL => Reason::CvFail,
                _ => Reason::CvOrder,
            }),
        },
        status: match answer.status {
            status::NONE => Status::None,
            status::PASS => Status::Pass {
                oldest: answer.oldest_pass,
            },
            _ => Status::Fail,
        },
    })
}
