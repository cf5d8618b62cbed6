//! What a reel has and its record leaves out: bytes that carry no meaning in documents 01 and 02.

use crate::layout::{check_of, Layout, Shape, HEADERS, TRACE_HEADER};
use std::ops::Range;

/// The unassigned bytes of the binary header and of a trace header, as places from the start of the reel and of the header.
const BINARY: Range<usize> = 3260..HEADERS;
const TRACE: Range<usize> = 180..TRACE_HEADER;

/// Sentences about what the record of a reel leaves out, where there is any: unassigned bytes that aren't 0; of an Eagle reel also trailer
/// bytes that aren't 0, FFFF at a trailer's end apart, and the check. The reel is one that was taken.
pub fn warnings(reel: &[u8], layout: Layout) -> Vec<String> {
    let shape = Shape::of_reel(reel, layout);
    let binary = not_zero(&reel[BINARY]);
    let of_binary = (binary > 0).then(|| (binary, format!("{binary} of bytes 3261 to 3600")));
    let of_headers = in_traces(reel, &shape, TRACE, ["bytes 181 to 240", "trace headers"]);
    let unassigned = ["an unassigned byte", "unassigned bytes"];
    let mut sentences = vec![sentence(unassigned, [of_binary, of_headers])];
    if layout == Layout::Eagle {
        let trailer = shape.trace_length - shape.trailer..shape.trace_length - 2;
        let of_trailers = in_traces(reel, &shape, trailer, ["bytes 1 to 958", "trailers"]);
        let in_trailers = ["a trailer byte", "trailer bytes"];
        sentences.push(sentence(in_trailers, [of_trailers, None]));
        sentences.push(check_of(reel).map(|check| {
            format!("the record leaves out the check in columns 79 and 80 of card 40, {check:04X}")
        }));
    }
    sentences.into_iter().flatten().collect()
}

/// How many bytes aren't 0.
fn not_zero(bytes: &[u8]) -> usize {
    bytes.iter().filter(|&&byte| byte != 0).count()
}

/// Bytes that aren't 0: how many, and where they stand, in words.
type NotZero = (usize, String);

/// Those in a part of each trace, where there are any. The part is named by its bytes and by what it is a part of.
fn in_traces(
    reel: &[u8],
    shape: &Shape,
    part: Range<usize>,
    [bytes, parts]: [&str; 2],
) -> Option<NotZero> {
    let (mut all, mut traces, mut first) = (0, 0, None);
    for (i, trace) in reel[HEADERS..].chunks_exact(shape.trace_length).enumerate() {
        let count = not_zero(&trace[part.clone()]);
        all += count;
        traces += usize::from(count > 0);
        if count > 0 && first.is_none() {
            first = Some(i + 1);
        }
    }
    first.map(|first| {
        let text = format!("{all} of {bytes} in {traces} of the {parts}, first in trace {first}");
        (all, text)
    })
}

/// The sentence about bytes of one kind, which is named for one and for more.
fn sentence([one, more]: [&str; 2], found: [Option<NotZero>; 2]) -> Option<String> {
    let (counts, parts): (Vec<usize>, Vec<String>) = found.into_iter().flatten().unzip();
    let parts = parts.join(", and ");
    match counts.iter().sum() {
        0 => None,
        1 => Some(format!("the record leaves out {one} that isn't 0: {parts}")),
        all => Some(format!(
            "the record leaves out {all} {more} that aren't 0: {parts}"
        )),
    }
}
