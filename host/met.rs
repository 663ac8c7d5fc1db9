//! How often each outcome was met: by refusal number, 0 for accepted. A number is a byte, so each is counted by itself.

pub struct Met([u64; 256]);

impl Default for Met {
    fn default() -> Met {
        Met([0; 256])
    }
}

impl Met {
    pub fn note(&mut self, number: u8) {
        self.0[number as usize] += 1;
    }

    pub fn count(&self, number: u8) -> u64 {
        self.0[number as usize]
    }

    /// Adds what another group met.
    pub fn add(&mut self, other: &Met) {
        for (sum, more) in self.0.iter_mut().zip(&other.0) {
            *sum += more;
        }
    }

    /// Holds where each of these numbers was met.
    pub fn has_all(&self, numbers: impl IntoIterator<Item = u8>) -> Result<(), String> {
        match numbers.into_iter().find(|&number| self.count(number) == 0) {
            Some(number) => Err(format!("refusal {number} was never met")),
            None => Ok(()),
        }
    }
}

/// The refusals that were met, each with how often, as ` 1:20 9:4`.
impl std::fmt::Display for Met {
    fn fmt(&self, f: &mut std::fmt::Formatter) -> std::fmt::Result {
        let refusals = self.0.iter().enumerate().skip(1);
        refusals
            .filter(|&(_, &count)| count > 0)
            .try_for_each(|(number, count)| write!(f, " {number}:{count}"))
    }
}
