//! Frames below n + 64 bytes, as they are.

use dabberpearl::Verdict;

/// How many there were, by ours (accepted, dropped, short) and libpcap's answer.
#[derive(Default)]
pub struct Short([[u64; 2]; 3]);

impl Short {
    /// Notes a frame's verdict here and whether libpcap accepts it; whether both are good for a
    /// frame that, filled up, is accepted or not. A verdict here other than short is that of the
    /// frame filled up. What libpcap accepts without a byte past the end it accepts however it
    /// goes on, so the filled frame is accepted.
    pub fn note(&mut self, run: Verdict, theirs: bool, filled: bool) -> bool {
        let (row, good) = match run {
            Verdict::Accepted => (0, filled),
            Verdict::Dropped => (1, !filled && !theirs),
            Verdict::Short => (2, filled || !theirs),
            _ => (2, false),
        };
        self.0[row][theirs as usize] += 1;
        good
    }

    pub fn count(&self) -> u64 {
        self.0.iter().flatten().sum()
    }

    pub fn print(&self) {
        let [accepted, dropped, short] = self.0;
        println!(
            "  those as they are, here and in libpcap: accepted and accepted {}, accepted and dropped {}, \
             dropped and dropped {}, short and dropped {}, short and accepted {}",
            accepted[1], accepted[0], dropped[0], short[0], short[1]
        );
    }
}
