//! How often each answer was reached, so that a test is known to try what it is about.

/// The answers are 0 and the refusals 1 to 20.
const ANSWERS: usize = 21;

pub struct Coverage {
    of: &'static str,
    counts: [u64; ANSWERS],
}

impl Coverage {
    pub fn new(of: &'static str) -> Coverage {
        Coverage { of, counts: [0; ANSWERS] }
    }

    pub fn count(&mut self, answer: u64) {
        self.counts[answer as usize] += 1;
    }

    /// Each of these answers was reached often enough, and no other at all. Prints the counts.
    pub fn assert_exactly(&self, answers: &[u64], at_least: u64) {
        println!("{}", self.summary());
        self.assert_reached(answers, at_least);
        for (answer, count) in self.counts.iter().enumerate() {
            let expected = answers.contains(&(answer as u64));
            assert!(expected || *count == 0, "answer {answer} was not expected: {}", self.summary());
        }
    }

    /// Each of these answers was reached often enough.
    pub fn assert_reached(&self, answers: &[u64], at_least: u64) {
        for answer in answers {
            let count = self.counts[*answer as usize];
            assert!(count >= at_least, "answer {answer} was reached too seldom: {}", self.summary());
        }
    }

    fn summary(&self) -> String {
        let total: u64 = self.counts.iter().sum();
        let reached = self.counts.iter().enumerate().filter(|(_, count)| **count > 0);
        let list: Vec<String> = reached.map(|(answer, count)| format!("{answer}: {count}")).collect();
        format!("{}: {total} calls; {}", self.of, list.join(", "))
    }
}
