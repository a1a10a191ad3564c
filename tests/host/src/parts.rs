//! The state and the frame table as they are lent: numbers and deques, which may have a wrong length, and a table of any length.

use crate::plain::{self, State, Words, FRAME_WORDS};
use crate::random::Random;

#[derive(Clone, Debug, PartialEq, Eq)]
pub struct Parts {
    pub numbers: Vec<u32>,
    pub deques: Vec<u32>,
    /// The table's words, FRAME_WORDS for each record.
    pub frames: Vec<u32>,
}

/// The lengths of numbers and deques.
pub const LENGTHS: [usize; 2] = [plain::NUMBERS_WORDS, plain::DEQUES_WORDS];

impl Parts {
    pub fn of(state: &State) -> Parts {
        let words = plain::to_words(state);
        Parts {
            numbers: words.numbers.into(),
            deques: words.deques.into(),
            frames: words.frames,
        }
    }

    /// None if numbers or deques have another length than they must have.
    pub fn state(&self) -> Option<State> {
        let words = Words {
            numbers: self.numbers.as_slice().try_into().ok()?,
            deques: self.deques.as_slice().try_into().ok()?,
            frames: self.frames.clone(),
        };
        Some(plain::from_words(&words))
    }

    /// Parts of the right lengths and a table of so many places, filled with any words.
    pub fn garbage(places: usize, random: &Random) -> Parts {
        let [numbers, deques] = LENGTHS.map(|length| random.words(length));
        let frames = random.words(places * FRAME_WORDS);
        Parts {
            numbers,
            deques,
            frames,
        }
    }

    pub fn each_mut(&mut self) -> [&mut Vec<u32>; 2] {
        [&mut self.numbers, &mut self.deques]
    }

    /// Zeros in numbers and deques, the table as it is: what most refused starts and readings leave.
    pub fn clear(&mut self) {
        self.each_mut().into_iter().for_each(|part| part.fill(0));
    }

    /// The lent table's places.
    pub fn places(&self) -> usize {
        self.frames.len() / FRAME_WORDS
    }

    /// A table of so many places, those that it has more filled with any words.
    pub fn resize_table(&mut self, places: usize, random: &Random) {
        let words = places * FRAME_WORDS;
        self.frames.truncate(words);
        self.frames.extend(random.words(words - self.frames.len()));
    }

    /// A table of another length, shorter or longer, also 0 and too long.
    pub fn spoil_table(&mut self, random: &Random) {
        let places = self.places();
        let others = [
            0,
            places.saturating_sub(1),
            places + 1,
            257,
            random.below(300),
        ];
        let other = random.pick(&others);
        let other = if other == places { places + 1 } else { other };
        self.resize_table(other, random);
    }

    /// Another length of numbers or deques, shorter or longer.
    pub fn spoil_length(&mut self, random: &Random) {
        let which = random.below(LENGTHS.len());
        let part = &mut self.each_mut()[which];
        if random.one_in(2) {
            part.truncate(random.below(LENGTHS[which]));
        } else {
            let more = 1 + random.below(4);
            part.extend(random.words(more));
        }
    }
}
