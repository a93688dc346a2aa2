//! The same calls on a plain `Vec<(u32, u32)>` of first and last frames.

#[allow(dead_code)] // another bench calls the rest of it
#[path = "../../lib/spans.rs"]
mod spans;

use spans::{DAY, Spans};
use std::hint::black_box;
use std::time::Instant;

fn spread(count: u32) -> Spans {
    let mut spans = Spans(Vec::new());
    for index in 0..count {
        spans.add(index * (DAY / count) % DAY);
    }
    spans
}

fn call(spans: &mut Spans, kind: &str, frame: u32) -> u64 {
    match kind {
        "contains" => spans.contains(frame).into(),
        "is_empty" => spans.0.is_empty().into(),
        "only" => spans.only().is_some().into(),
        "least" => spans.least().is_some().into(),
        "spans" => spans.0.len() as u64,
        "copy" => black_box(spans.clone()).0.len() as u64,
        "shift_next" => {
            spans.shift_next();
            1
        }
        "shift_prev" => {
            spans.shift_prev();
            1
        }
        "copy+widen_next" => {
            let mut copy = black_box(spans.clone());
            copy.widen_next();
            copy.0.len() as u64
        }
        "copy+widen_prev" => {
            let mut copy = black_box(spans.clone());
            copy.widen_prev();
            copy.0.len() as u64
        }
        "copy+keep_only" => {
            let mut copy = black_box(spans.clone());
            copy.keep_only(frame);
            copy.0.len() as u64
        }
        "one" => black_box(Spans(vec![(frame, frame)])).0.len() as u64,
        _ => {
            spans.add(frame);
            1
        }
    }
}

fn measure(count: u32, kind: &str, calls: u32) {
    let mut spans = spread(count);
    let kind = black_box(kind);
    let start = Instant::now();
    let mut drawn = 1u32;
    let mut seen = 0u64;
    for _ in 0..calls {
        drawn = drawn.wrapping_mul(1_664_525).wrapping_add(1_013_904_223);
        seen += call(black_box(&mut spans), kind, drawn % DAY);
    }
    println!("{count} {kind} {} {seen}", start.elapsed().as_nanos());
}

fn main() {
    let kinds = [
        "contains", "is_empty", "only", "least", "spans", "copy", "shift_next", "shift_prev",
        "copy+widen_next", "copy+widen_prev", "copy+keep_only", "add", "one",
    ];
    for count in [1, 100, 10_000] {
        for kind in kinds {
            measure(count, kind, 100_000);
        }
    }
    for kind in ["contains", "add"] {
        measure(400_000, kind, 10_000);
    }
}
