//! Compares the library's C interface with an independent implementation of documents 01 and 02: the
//! same calls, whose answers and whose every output byte, before and after, must agree.
//!
//! With the argument `every-word` it compares all words of code 5, and nothing else: each is read,
//! written and read again, and its value is that of the host's own float.

mod boxes;
mod compare;
mod eagle;
mod eights;
mod library;
mod listings;
mod long;
mod nearest;
mod normal;
mod order;
mod random;
mod records;
mod reels;
mod samples;
mod scalars;

fn main() {
    let mut compare = compare::Comparison::new();
    let arguments: Vec<String> = std::env::args().skip(1).collect();
    match &arguments[..] {
        [] => everything(&mut compare),
        [word] if word == "every-word" => samples::every_ieee_word(&mut compare),
        _ => {
            eprintln!("usage: differential [every-word]");
            std::process::exit(1);
        }
    }
    println!("differential: {} calls compared, 0 differ", compare.calls());
}

fn everything(compare: &mut compare::Comparison) {
    samples::words(compare);
    samples::pairs(compare);
    reels::reels(compare);
    reels::look_ups(compare);
    records::records(compare);
    nearest::nearest(compare);
    scalars::scalars(compare);
    normal::counts(compare);
    listings::listings(compare);
    listings::causes_of_listings(compare);
    eights::eights(compare);
    eagle::eagle_reels(compare);
    long::long_traces(compare);
    order::order(compare);
    boxes::boxes(compare);
    reels::long_reels(compare);
    normal::long_reels(compare);
    records::long_records(compare);
    nearest::long_records(compare);
    listings::long_listings(compare);
    eagle::long_reels(compare);
    order::long_records(compare);
    boxes::long_boxes(compare);

    compare.stage("the whole run");
    if !compare.report() {
        std::process::exit(1);
    }
}
