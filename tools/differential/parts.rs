//! What was compared and what differed, by the part that is to blame.

use crate::loads::Met;
use crate::part::{print_all, Answers, Part};

/// What a difference is put down to.
#[derive(Clone, Copy, PartialEq)]
pub enum Blame {
    Machine,
    Reading,
}

/// Builds, the second generator, questions, loads, runs over one and the same program,
/// readings, and captures.
pub struct Parts {
    pub builds: Part,
    pub second: Part,
    pub questions: Part,
    pub loads: Part,
    pub machine: Part,
    pub readings: Part,
    pub captures: Part,
    /// Of the builds those that the second generator judges, by its answers.
    pub cooked: Answers,
    /// What the questions and the loads were.
    pub loaded: Met,
}

impl Parts {
    pub fn new(seed: u64) -> Parts {
        Parts {
            builds: Part::new("builds"),
            second: Part::new("second generator"),
            questions: Part::new("questions"),
            loads: Part::new("loads"),
            machine: Part::new("machine"),
            readings: Part::new("readings"),
            captures: Part::new("captures"),
            cooked: Answers::default(),
            loaded: Met::new(seed),
        }
    }

    pub fn of(&mut self, blame: Blame) -> &mut Part {
        match blame {
            Blame::Machine => &mut self.machine,
            Blame::Reading => &mut self.readings,
        }
    }

    fn all(&self) -> [&Part; 7] {
        [
            &self.builds,
            &self.second,
            &self.questions,
            &self.loads,
            &self.machine,
            &self.readings,
            &self.captures,
        ]
    }

    fn print_cooked(&self) {
        let [accepted, refused @ ..] = self.cooked;
        let cooked = accepted + refused.iter().sum::<u64>();
        let met = (1..).zip(refused).filter(|(_, count)| *count > 0);
        let met: String = met
            .map(|(n, count)| format!(", refused {n}: {count}"))
            .collect();
        let whose = "cooked trees, compared with the second generator";
        println!("{whose}: {cooked}, accepted {accepted}{met}");
    }

    pub fn differences(&self) -> u64 {
        self.all().iter().map(|part| part.differences).sum()
    }

    /// All of it; how many differences there were.
    pub fn print(&self) -> u64 {
        if self.builds.was_asked() {
            self.print_cooked();
        }
        if self.loads.was_asked() {
            self.loaded.print();
        }
        print_all(&self.all())
    }
}
