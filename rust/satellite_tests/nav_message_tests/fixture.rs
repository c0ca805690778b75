// Made by tools/rust of crates/satellite_tests/src/nav_message_tests/fixture.rt: change that.
//! A message to which whole bits and words are pushed.

use crate::satellite_tests::asserted::{assert_same_at, assert_that};
use crate::satellite_tests::sent::subframe;
use crate::data_sets::{Report, Reports};
use crate::frame_sync::Found;
use crate::nav_message::{MOST_BITS, Message, MessageNews};
use crate::kit::std::process::Abort;

/// So many bits 0 and the words of a subframe, as they are sent, and what the last bit makes
/// reported: the data of the words, the gap, and what the page brings, but no set of almanacs.
#[derive(Clone, Copy)]
pub struct Step {
    pub name: &'static str,
    pub zeros: u32,
    pub sent: [u32; 10],
    pub words: [Option<u32>; 10],
    pub gap: Option<u64>,
    pub page: Option<Report>,
}

/// Asserts what each of these steps makes reported, after two bits 0.
pub fn follow(rt: &impl Abort, steps: &[Step]) {
    let mut pushed = Pushed::behind_two_zeros(rt);
    for step in steps {
        pushed.assert_step(rt, step);
    }
}

/// A message, and how many prompt sums were pushed.
pub struct Pushed {
    message: Message,
    pushes: u64,
}

impl Pushed {
    /// A message of nothing.
    pub fn new() -> Pushed {
        Pushed {
            message: Message::new(),
            pushes: 0,
        }
    }

    /// A message whose edge is found, and to which two bits 0 were pushed. Its sums were 20 times
    /// +1, 20 times -1 and so on up to push 320, the sixteenth change, and then 40 times +1.
    pub fn behind_two_zeros(rt: &impl Abort) -> Pushed {
        let mut pushed = Pushed::new();
        for k in 0..340u32 {
            pushed.push_alternating(rt, k);
        }
        pushed.push_zeros(rt, 1);
        pushed
    }

    /// Pushes sum k of 20 times +1, 20 times -1 and so on, to a message that has those before it.
    /// Push 320 reports the edge, and no other reports anything.
    pub fn push_alternating(&mut self, rt: &impl Abort, k: u32) {
        assert_same_at(rt, k, self.message.has_edge(), k > 320);
        let news = self.push(rt, k / 20 % 2 == 1);
        let expected = if k == 320 {
            MessageNews::Edge
        } else {
            MessageNews::Nothing
        };
        self.assert_news(rt, &news, &expected);
    }

    /// Pushes bits 0, which report nothing.
    pub fn push_zeros(&mut self, rt: &impl Abort, count: u32) {
        for _ in 0..count {
            let news = self.push_bit(rt, false);
            self.assert_news(rt, &news, &MessageNews::Nothing);
        }
    }

    /// Pushes the bits of a step, and asserts what the last of them makes reported.
    pub fn assert_step(&mut self, rt: &impl Abort, step: &Step) {
        self.push_zeros(rt, step.zeros);
        let news = self.push_words(rt, &step.sent);
        let found = Found {
            subframe: subframe(rt, step.words),
            gap: step.gap,
        };
        let reports = Reports {
            page: step.page,
            set: None,
        };
        let expected = MessageNews::Frame { found, reports };
        assert_same_at(rt, (step.name, self.pushes), news, expected);
    }

    /// Pushes the bits of words of 30, the highest first. Only the last of them may make something
    /// reported.
    pub fn push_words(&mut self, rt: &impl Abort, words: &[u32; 10]) -> MessageNews {
        let mut last = MessageNews::Nothing;
        for k in 0..300usize {
            self.assert_news(rt, &last, &MessageNews::Nothing);
            last = self.push_bit(rt, words[k / 30] >> (29 - k % 30) & 1 == 1);
        }
        last
    }

    /// Pushes the 20 sums of a bit, of which only the last may make something reported.
    fn push_bit(&mut self, rt: &impl Abort, bit: bool) -> MessageNews {
        for _ in 0..19 {
            let news = self.push(rt, bit);
            self.assert_news(rt, &news, &MessageNews::Nothing);
        }
        self.push(rt, bit)
    }

    /// Asserts what the last sum made reported.
    fn assert_news(&self, rt: &impl Abort, news: &MessageNews, expected: &MessageNews) {
        assert_same_at(rt, self.pushes, news, expected);
    }

    /// Pushes +1, or -1.
    fn push(&mut self, rt: &impl Abort, is_negative: bool) -> MessageNews {
        assert_that(rt, self.pushes < MOST_BITS);
        self.pushes += 1;
        let mut news = MessageNews::Nothing;
        self.message
            .push(if is_negative { -1 } else { 1 }, &mut news);
        news
    }
}
