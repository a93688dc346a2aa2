//! A plain sorted list of spans, as their first and last frames: what the sets of times are measured against.

pub const DAY: u32 = 2_160_000;
const LAST: u32 = DAY - 1;

#[derive(Clone)]
pub struct Spans(pub Vec<(u32, u32)>);

impl Spans {
    pub fn all() -> Spans {
        Spans(vec![(0, LAST)])
    }

    fn place(&self, frame: u32) -> usize {
        self.0.partition_point(|span| span.1 < frame)
    }

    pub fn contains(&self, frame: u32) -> bool {
        self.0.get(self.place(frame)).is_some_and(|span| span.0 <= frame)
    }

    pub fn only(&self) -> Option<u32> {
        match self.0.as_slice() {
            [(first, last)] if first == last => Some(*first),
            _ => None,
        }
    }

    pub fn least(&self) -> Option<u32> {
        self.0.first().map(|span| span.0)
    }

    pub fn add(&mut self, frame: u32) {
        let index = self.place(frame.saturating_sub(1));
        match self.0.get_mut(index) {
            Some(span) if span.0 <= frame + 1 => {
                *span = (span.0.min(frame), span.1.max(frame));
                let last = span.1;
                if let Some(after) = self.0.get(index + 1).copied().filter(|after| after.0 <= last + 1) {
                    self.0.remove(index + 1);
                    self.0[index].1 = after.1;
                }
            }
            _ => self.0.insert(index, (frame, frame)),
        }
    }

    pub fn shift_next(&mut self) {
        let wraps = self.contains(LAST);
        if self.0.last() == Some(&(LAST, LAST)) {
            self.0.pop();
        }
        for span in &mut self.0 {
            *span = (span.0 + 1, (span.1 + 1).min(LAST));
        }
        if wraps {
            self.add(0);
        }
    }

    pub fn shift_prev(&mut self) {
        let wraps = self.contains(0);
        if self.0.first() == Some(&(0, 0)) {
            self.0.remove(0);
        }
        for span in &mut self.0 {
            *span = (span.0.saturating_sub(1), span.1 - 1);
        }
        if wraps {
            self.add(LAST);
        }
    }

    fn join(&mut self, widened: impl Fn((u32, u32)) -> (u32, u32)) {
        let mut kept = 0;
        for index in 0..self.0.len() {
            let span = widened(self.0[index]);
            if kept > 0 && span.0 <= self.0[kept - 1].1 + 1 {
                self.0[kept - 1].1 = span.1;
            } else {
                self.0[kept] = span;
                kept += 1;
            }
        }
        self.0.truncate(kept);
    }

    pub fn widen_next(&mut self) {
        let wraps = self.contains(LAST) && !self.contains(0);
        self.join(|span| (span.0, (span.1 + 1).min(LAST)));
        if wraps {
            self.add(0);
        }
    }

    pub fn widen_prev(&mut self) {
        let wraps = self.contains(0) && !self.contains(LAST);
        self.join(|span| (span.0.saturating_sub(1), span.1));
        if wraps {
            self.add(LAST);
        }
    }

    pub fn keep_only(&mut self, frame: u32) {
        if self.contains(frame) {
            self.0.truncate(1);
            self.0[0] = (frame, frame);
        } else {
            self.0.clear();
        }
    }
}
