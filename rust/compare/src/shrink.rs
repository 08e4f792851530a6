//! Small cases from large ones.

use oracle::layout::{ROW_WIDTH, TOKEN_WIDTH};
use std::ops::Range;

/// A case that can be made smaller.
pub trait Shrinks: Clone {
    /// Smaller or simpler cases, the boldest first.
    fn smaller(&self) -> Box<dyn Iterator<Item = Self> + '_>;
}

/// The smallest case that can be reached by steps that keep what `holds` says.
pub fn shrink<C: Shrinks>(case: &C, mut holds: impl FnMut(&C) -> bool) -> C {
    let mut case = case.clone();
    loop {
        let next = case.smaller().find(|smaller| holds(smaller));
        match next {
            Some(smaller) => case = smaller,
            None => return case,
        }
    }
}

/// The parts that can be cut out of `count` things: the whole, halves, quarters
/// and so on, then any four, three, two or one that stand together.
pub fn cuts(count: usize) -> impl Iterator<Item = Range<usize>> {
    let large = std::iter::successors(Some(count), |size| Some(size / 2));
    let large = large.take_while(|size| *size > 4).map(|size| (size, size));
    let small = (1..=count.min(4)).rev().map(|size| (size, 1));
    large.chain(small).flat_map(move |(size, step)| {
        let starts = (0..=count - size).step_by(step);
        starts.map(move |start| start..start + size)
    })
}

/// Numbers to try in the place of a larger one: none of it, half of it, three
/// quarters and so on, a row less and one less. So few steps lead to the smallest
/// number that will do, however large the first one is.
pub fn smaller_numbers(number: usize) -> impl Iterator<Item = usize> {
    let parts = std::iter::successors(Some(number), |part| Some(part / 2));
    let tries = parts.take_while(|part| *part > 1).map(move |part| number - part);
    let near = [number.saturating_sub(ROW_WIDTH), number.saturating_sub(1)];
    tries.chain(near).filter(move |n| *n < number)
}

/// A part of a text: its start and its length.
pub type Span = (u64, u64);

/// A text without the bytes that lie in no span that fits, and the spans over what
/// is left; none if all bytes are used. What reached past the text still does, by
/// as much.
pub fn without_unused_bytes(text: &[u8], spans: &[Span]) -> Option<(Vec<u8>, Vec<Span>)> {
    let used = used(text.len(), spans);
    let kept: Vec<u8> =
        text.iter().zip(&used).filter(|(_, used)| **used).map(|(b, _)| *b).collect();
    let gone = (text.len() - kept.len()) as u64;
    if gone == 0 {
        return None;
    }
    let mut places = vec![0];
    places.extend(used.iter().scan(0, |place, used| {
        *place += u64::from(*used);
        Some(*place)
    }));
    let moved = |place: u64| places.get(place as usize).copied().unwrap_or_else(|| place - gone);
    let span = |(start, length): &Span| match start.checked_add(*length) {
        Some(end) => (moved(*start), moved(end) - moved(*start)),
        None => (moved(*start), *length),
    };
    Some((kept, spans.iter().map(span).collect()))
}

/// Which bytes of a text of some length lie in a span that fits.
fn used(length: usize, spans: &[Span]) -> Vec<bool> {
    let mut used = vec![false; length];
    for (start, count) in spans {
        if start.checked_add(*count).is_some_and(|end| end <= length as u64) {
            used[*start as usize..][..*count as usize].fill(true);
        }
    }
    used
}

/// A text and a token table over it without the bytes that no token uses.
pub fn tokens_without_unused_bytes(text: &[u8], tokens: &[u32]) -> Option<(Vec<u8>, Vec<u32>)> {
    let spans = tokens.as_chunks::<TOKEN_WIDTH>().0.iter();
    let spans = spans.map(|[_, start, length]| (u64::from(*start), u64::from(*length)));
    let (text, spans) = without_unused_bytes(text, &spans.collect::<Vec<_>>())?;
    let mut tokens = tokens.to_vec();
    for ([_, span @ ..], (start, length)) in
        tokens.as_chunks_mut::<TOKEN_WIDTH>().0.iter_mut().zip(spans)
    {
        *span = [start as u32, length as u32];
    }
    Some((text, tokens))
}

/// Token tables with one span made shorter, at its end or at its start, or moved
/// to the front: of spans that fit, as the bytes of others say nothing.
pub fn smaller_spans<'a>(text: &'a [u8], tokens: &'a [u32]) -> impl Iterator<Item = Vec<u32>> + 'a {
    let spans = tokens.as_chunks::<TOKEN_WIDTH>().0.iter().enumerate();
    let fits = |start: u32, length: u32| start as usize + length as usize <= text.len();
    let fitting = spans.filter(move |(_, [_, start, length])| fits(*start, *length));
    let smaller = fitting.flat_map(|(n, [_, start, length])| {
        let ends = smaller_numbers(*length as usize).map(|length| [*start, length as u32]);
        let later = (*length > 1).then(|| [start + 1, length - 1]);
        let starts = smaller_numbers(*start as usize).map(|start| [start as u32, *length]);
        ends.chain(later).chain(starts).map(move |span| (n, span))
    });
    smaller.map(|(n, span)| {
        let mut tokens = tokens.to_vec();
        tokens.as_chunks_mut::<TOKEN_WIDTH>().0[n][1..].copy_from_slice(&span);
        tokens
    })
}
