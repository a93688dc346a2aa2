//! The same drawn calls on a plain `Vec<(u32, u32)>` of first and last frames.

#[path = "../../../bench/lib/spans.rs"]
mod spans;

use spans::{DAY, Spans};

const ROUNDS: [(u32, u32, u32); 3] = [
    (400_000, 64, 16),
    (300_000, 8_000, 2_048),
    (300_000, 600_000, 65_536),
];

const LAST_CALLS: u32 = 128;

fn next_drawn(drawn: u32) -> u32 {
    drawn.wrapping_mul(1_664_525).wrapping_add(1_013_904_223)
}

fn make(spans: &mut Spans, pick: u32, rare: u32, frame: u32) {
    if pick % rare != 0 {
        if pick % 4 != 1 {
            spans.add(frame);
        }
        return;
    }
    match pick / rare % 8 {
        0 => spans.widen_next(),
        1 => spans.widen_prev(),
        2 => spans.keep_only(frame),
        3..=5 => spans.shift_next(),
        _ => spans.shift_prev(),
    }
}

fn make_last(spans: &mut Spans, place: u32, frame: u32) {
    if place % 16 != 0 {
        spans.add(frame);
        return;
    }
    match place / 16 % 8 {
        0 | 3 | 6 => spans.shift_next(),
        1 | 5 => spans.shift_prev(),
        2 => spans.widen_next(),
        4 => spans.widen_prev(),
        _ => spans.keep_only(frame),
    }
}

fn number_of(frame: Option<u32>) -> u64 {
    frame.map_or(0, |frame| u64::from(frame) + 1)
}

fn main() {
    for (calls, width, rare) in ROUNDS {
        let mut spans = Spans(Vec::new());
        let mut drawn = width;
        let mut sum = 0u64;
        for turn in 0..calls + LAST_CALLS {
            drawn = next_drawn(drawn);
            let pick = drawn >> 4;
            drawn = next_drawn(drawn);
            let frame = (DAY - width / 2 + (drawn >> 8) % width) % DAY;
            if turn < calls {
                make(&mut spans, pick, rare, frame);
            } else {
                make_last(&mut spans, turn - calls, frame);
            }
            let parts = [
                spans.0.len() as u64,
                number_of(spans.least()),
                number_of(spans.only()),
                spans.contains(frame).into(),
            ];
            for part in parts {
                sum = sum.wrapping_mul(6_364_136_223_846_793_005).wrapping_add(part);
            }
            if turn % 10_000 == 9_999 || turn >= calls {
                println!("{width} {turn} {} {sum}", spans.0.len());
            }
        }
    }
}
