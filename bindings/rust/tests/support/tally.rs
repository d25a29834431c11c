//! Compares calls, and counts what they answered.

use opening_tree::Record;

use super::calls::{Answer, Call, Entry};
use super::cases::beyond;
use crate::model::field::is_word;

/// Refusals are at their numbers.
const DONE: usize = 0;
const LAST_REFUSAL: usize = 18;
const REJECTED: usize = LAST_REFUSAL + 1;

/// The refusal of a file of 2^32 bytes or more. No call that is drawn has so many; tests/files.rs has.
const FILE_TOO_LONG: u8 = 16;

/// The refusal of a push that has a place twice.
const REPEATED_PLACE: u8 = 17;

/// The refusal of a set whose kept values are not those of its D.
const BAD_KEPT_VALUES: usize = 18;

/// The library looks for a place that stands twice in another way where there are over so many records.
const FEW_RECORDS: usize = 128;

/// Pushes of two records and more.
#[derive(Clone, Copy, Debug, Default)]
pub struct Pushes {
    pub done: u64,
    /// Refused since a place stands twice.
    pub repeated: u64,
}

#[derive(Default)]
pub struct Tally {
    counts: [[u64; REJECTED + 1]; Entry::ALL.len()],
    /// Calls that were done though a number in their buffers, or one to multiply, was not a word.
    with_no_words: [u64; Entry::ALL.len()],
    /// Calls that were done under a set whose diagonal has a zero.
    with_zero: [u64; Entry::ALL.len()],
    /// Calls that were done under a set of which a place that it does not use holds another number than 0.
    with_beyond: [u64; Entry::ALL.len()],
    /// Extractions by the level they answered.
    levels: Vec<u64>,
    /// Those of few records, and those of more.
    pushes: [Pushes; 2],
}

impl Tally {
    /// Makes the call to the library and to the model, and compares the answers and every buffer; and the sizes of the call's set.
    pub fn compare(&mut self, call: Call) -> Answer {
        if call.entry.takes_set() && call.entry != Entry::Sizes {
            self.compare_one(Call::sizes(call.set.clone()));
        }
        self.compare_one(call)
    }

    fn compare_one(&mut self, call: Call) -> Answer {
        let (mut library, mut model) = (call.clone(), call.clone());
        let answer = library.ask_library();
        assert_eq!(answer, model.ask_model(), "the answers differ: {call:?}");
        assert_eq!(library, model, "the buffers differ after {call:?}");
        if let Answer::Refused(number) = answer {
            assert_eq!(library, call, "refusal {number} was given, and a buffer has changed");
        }
        self.count(&call, &answer);
        answer
    }

    fn count(&mut self, call: &Call, answer: &Answer) {
        let entry = call.entry as usize;
        let column = match answer {
            Answer::Done | Answer::Set(_) | Answer::Number(_) | Answer::Sizes(_) | Answer::Accepted => DONE,
            Answer::Rejected => REJECTED,
            Answer::Refused(number) => *number as usize,
        };
        self.counts[entry][column] += 1;
        let numbers = match call.entry {
            Entry::Product => &call.numbers[..],
            Entry::Power => &call.numbers[..1],
            _ => &[],
        };
        if column == DONE && call.buffers.iter().flatten().chain(numbers).any(|&n| !is_word(n)) {
            self.with_no_words[entry] += 1;
        }
        if column == DONE && call.diagonal().contains(&0) {
            self.with_zero[entry] += 1;
        }
        let holds_beyond = || beyond(&mut call.set.clone()).into_iter().flatten().any(|number| *number != 0);
        if column == DONE && call.entry.takes_set() && holds_beyond() {
            self.with_beyond[entry] += 1;
        }
        if let (Entry::Extract, Answer::Number(level)) = (call.entry, answer) {
            let level = *level as usize;
            self.levels.resize(self.levels.len().max(level + 1), 0);
            self.levels[level] += 1;
        }
        if call.entry == Entry::Push {
            self.count_push(call.buffers[1].len() / Record::NUMBERS, answer);
        }
    }

    fn count_push(&mut self, records: usize, answer: &Answer) {
        let pushes = &mut self.pushes[usize::from(records > FEW_RECORDS)];
        match answer {
            Answer::Number(_) if records > 1 => pushes.done += 1,
            Answer::Refused(REPEATED_PLACE) => pushes.repeated += 1,
            _ => {}
        }
    }

    pub fn total(&self) -> u64 {
        self.counts.iter().flatten().sum()
    }

    pub fn levels(&self) -> &[u64] {
        &self.levels
    }

    /// Pushes of few records, and of more.
    pub fn pushes(&self) -> [Pushes; 2] {
        self.pushes
    }

    pub fn print(&self) {
        print!("{:16} {:>6}", "", "done");
        (1..=LAST_REFUSAL).for_each(|number| print!(" {number:>5}"));
        println!(" rejected  with no words  0 in D  beyond");
        for entry in Entry::ALL {
            let counts = &self.counts[entry as usize];
            print!("{:16} {:>6}", format!("{entry:?}"), counts[DONE]);
            counts[1..=LAST_REFUSAL].iter().for_each(|count| print!(" {count:>5}"));
            let [with_no_words, with_zero, with_beyond] =
                [&self.with_no_words, &self.with_zero, &self.with_beyond].map(|counts| counts[entry as usize]);
            println!(" {:>8} {with_no_words:>14} {with_zero:>7} {with_beyond:>7}", counts[REJECTED]);
        }
        println!("extractions by level: {:?}", self.levels);
        for (of, pushes) in [(format!("2 to {FEW_RECORDS}"), self.pushes[0]), (format!("over {FEW_RECORDS}"), self.pushes[1])] {
            println!("pushes of {of} records: {} done, {} with a place twice", pushes.done, pushes.repeated);
        }
        println!("calls: {}", self.total());
    }

    /// Every function was done, also with a zero in the diagonal and with any numbers beyond what the set uses, and gave each refusal that it
    /// can, that of the kept values often, but not that of a file that is too long, and no other; verification rejected too; and a function was
    /// done with numbers that are no words if there are places where it takes any, and only then.
    pub fn assert_all_reached(&self) {
        for entry in Entry::ALL {
            let mut expected = vec![DONE];
            expected.extend(entry.refusals().iter().filter(|&&number| number != FILE_TOO_LONG).map(|&number| number as usize));
            if entry == Entry::Verify {
                expected.push(REJECTED);
            }
            let counts = &self.counts[entry as usize];
            let reached: Vec<usize> = (0..counts.len()).filter(|&column| counts[column] > 0).collect();
            assert_eq!(reached, expected, "{entry:?}: 0 is done, {REJECTED} rejected");
            let wants_words_alone = match entry {
                Entry::Product | Entry::Power => false,
                entry if entry.is_of_field() => true,
                Entry::Validate | Entry::ExchangeDiagonal | Entry::ExchangeHeight | Entry::Sizes => true,
                Entry::Permute | Entry::Unpermute | Entry::Verify => true,
                _ => false,
            };
            assert_eq!(self.with_no_words[entry as usize] == 0, wants_words_alone, "{entry:?}");
            assert!(entry.is_of_field() || self.with_zero[entry as usize] >= 100, "{entry:?}");
            assert!(!entry.takes_set() || self.with_beyond[entry as usize] >= 100, "{entry:?}");
            assert!(!entry.takes_set() || counts[BAD_KEPT_VALUES] >= 1_000, "{entry:?}");
        }
    }
}
