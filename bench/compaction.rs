//! Compactions in plain Rust, for the baselines: runs are merged key by key, and of a key's points between two keeps at
//! most one is left.

use crate::store::{Entry, Fragment, Run, What, cut};

const MAX_SEQUENCE: u64 = (1 << 56) - 1;

/// The way in which operands are joined.
pub(crate) trait Operator {
    /// The value that an operand makes of none.
    fn first(operand: &[u8]) -> Vec<u8>;

    /// The value that an older one becomes with a newer operand.
    fn joined(older: Vec<u8>, newer: &[u8]) -> Vec<u8>;
}

/// Adds numbers of 64 bits.
pub(crate) struct Counter;

fn number(bytes: &[u8]) -> u64 {
    bytes.try_into().map_or(0, u64::from_le_bytes)
}

impl Operator for Counter {
    fn first(operand: &[u8]) -> Vec<u8> {
        number(operand).to_le_bytes().to_vec()
    }

    fn joined(mut older: Vec<u8>, newer: &[u8]) -> Vec<u8> {
        let sum = number(&older).wrapping_add(number(newer));
        older.clear();
        older.extend_from_slice(&sum.to_le_bytes());
        older
    }
}

enum Effect {
    Keep,
    Fold(Vec<u8>),
    Set(Option<Vec<u8>>),
}

impl Effect {
    fn changed_by<O: Operator>(self, what: &What) -> Effect {
        match what {
            What::Put(value) => Effect::Set(Some(value.clone())),
            What::Delete => Effect::Set(None),
            What::Merge(operand) => match self {
                Effect::Keep => Effect::Fold(operand.clone()),
                Effect::Fold(older) => Effect::Fold(O::joined(older, operand)),
                Effect::Set(None) => Effect::Set(Some(O::first(operand))),
                Effect::Set(Some(value)) => Effect::Set(Some(O::joined(value, operand))),
            },
        }
    }

    /// The value that it makes of none.
    fn value<O: Operator>(self) -> Option<Vec<u8>> {
        match self {
            Effect::Keep => None,
            Effect::Fold(operand) => Some(O::first(&operand)),
            Effect::Set(value) => value,
        }
    }
}

/// The effect of a stripe's points of a key, and below them of its newest range deletion.
fn effect_of<O: Operator>(points: &[&Entry], deleted: Option<u64>) -> Effect {
    let (mut effect, mut newer) = (Effect::Keep, points);
    if let Some(deleted) = deleted {
        effect = Effect::Set(None);
        newer = &points[..points.partition_point(|point| deleted < point.seq)];
    }
    let set = newer
        .iter()
        .position(|point| !matches!(point.what, What::Merge(_)));
    if let Some(place) = set {
        newer = &newer[..=place];
    }
    for point in newer.iter().rev() {
        effect = effect.changed_by::<O>(&point.what);
    }
    effect
}

/// The points of runs that are still ahead.
struct Groups<'a> {
    ahead: Vec<&'a [Entry]>,
}

impl<'a> Groups<'a> {
    /// The next key. Its points take the place of those in `points`, those of the newest run first.
    fn next_into(&mut self, points: &mut Vec<&'a Entry>) -> Option<&'a [u8]> {
        points.clear();
        let heads = self.ahead.iter().filter_map(|ahead| ahead.first());
        let key = heads.map(|point| point.key.as_slice()).min()?;
        for ahead in &mut self.ahead {
            let count = ahead.iter().take_while(|point| point.key == key).count();
            let (named, rest) = ahead.split_at(count);
            points.extend(named);
            *ahead = rest;
        }
        Some(key)
    }
}

/// The sequences that are kept: those that reads are made at, and with the oldest run one of the stripe at the bottom.
#[derive(Clone, Copy)]
pub(crate) struct Keeping<'a> {
    pub(crate) keeps: &'a [u64],
    pub(crate) bottom: Option<u64>,
}

/// The sequences above one, up to another and with it.
struct Stripe {
    above: u64,
    upto: u64,
}

impl Keeping<'_> {
    fn stripe_of(&self, seq: u64) -> Stripe {
        let place = self.keeps.partition_point(|keep| *keep < seq);
        Stripe {
            above: if place == 0 { 0 } else { self.keeps[place - 1] },
            upto: self.keeps.get(place).copied().unwrap_or(MAX_SEQUENCE),
        }
    }

    fn is_bottom(&self, stripe: &Stripe) -> bool {
        self.bottom
            .is_some_and(|seq| stripe.above < seq && seq <= stripe.upto)
    }

    /// Of each stripe but the bottom one, the greatest of a fragment's sequences.
    fn kept_seqs(&self, seqs: &[u64]) -> Vec<u64> {
        let mut kept = Vec::new();
        let mut rest = seqs;
        while let Some(newest) = rest.first() {
            let stripe = self.stripe_of(*newest);
            if !self.is_bottom(&stripe) {
                kept.push(*newest);
            }
            rest = &rest[rest.partition_point(|seq| stripe.above < *seq)..];
        }
        kept
    }

    /// The replacement of a stripe's points, where a range deletion of it covers the key.
    fn what_kept<O: Operator>(
        &self,
        stripe: &Stripe,
        own: &[&Entry],
        deleted: Option<u64>,
    ) -> Option<What> {
        let effect = effect_of::<O>(own, deleted);
        if self.is_bottom(stripe) {
            return effect.value::<O>().map(What::Put);
        }
        match effect {
            Effect::Keep => None,
            Effect::Fold(operand) => Some(What::Merge(operand)),
            Effect::Set(Some(value)) => Some(What::Put(value)),
            Effect::Set(None) if deleted.is_some_and(|seq| own[0].seq < seq) => None,
            Effect::Set(None) => Some(What::Delete),
        }
    }

    /// Pushes the points that stand for a key's points.
    fn push_kept<O: Operator>(
        &self,
        kept: &mut Vec<Entry>,
        key: &[u8],
        points: &[&Entry],
        seqs: &[u64],
    ) {
        let mut rest = points;
        while let Some(newest) = rest.first() {
            let stripe = self.stripe_of(newest.seq);
            let (own, below) = rest.split_at(rest.partition_point(|p| stripe.above < p.seq));
            rest = below;
            let over = seqs.partition_point(|seq| stripe.upto < *seq);
            let deleted = seqs.get(over).filter(|seq| stripe.above < **seq);
            let what = self.what_kept::<O>(&stripe, own, deleted.copied());
            kept.extend(what.map(|what| Entry {
                key: key.to_vec(),
                seq: newest.seq,
                what,
            }));
        }
    }
}

/// The sequences of the range deletions over a key, where keys rise from call to call.
fn seqs_over<'a>(ahead: &mut &'a [Fragment], key: &[u8]) -> &'a [u64] {
    while let [first, rest @ ..] = *ahead {
        if key < first.end.as_slice() {
            break;
        }
        *ahead = rest;
    }
    match ahead.first() {
        Some(fragment) if fragment.begin.as_slice() <= key => &fragment.seqs,
        _ => &[],
    }
}

/// Several runs, the newest first, made into one.
pub(crate) fn compact<O: Operator>(inputs: &[&Run], keeping: Keeping<'_>) -> Run {
    let fragments = inputs.iter().flat_map(|run| &run.fragments);
    let ranges: Vec<(&[u8], &[u8], u64)> = fragments
        .flat_map(|fragment| {
            let seqs = fragment.seqs.iter();
            seqs.map(|seq| (fragment.begin.as_slice(), fragment.end.as_slice(), *seq))
        })
        .collect();
    let mut fragments = cut(&ranges);
    let mut groups = Groups {
        ahead: inputs.iter().map(|run| run.points.as_slice()).collect(),
    };
    let mut kept = Vec::new();
    let mut points = Vec::new();
    let mut ahead = fragments.as_slice();
    while let Some(key) = groups.next_into(&mut points) {
        let seqs = seqs_over(&mut ahead, key);
        keeping.push_kept::<O>(&mut kept, key, &points, seqs);
    }
    for fragment in &mut fragments {
        fragment.seqs = keeping.kept_seqs(&fragment.seqs);
    }
    fragments.retain(|fragment| !fragment.seqs.is_empty());
    Run::new(kept, fragments)
}
