//! Counts of what a set of inputs reached. A class that nothing reached is a
//! mistake of the generator, so each count must be above zero.

/// Counts by name, in the order in which the names were announced.
pub struct Tally {
    title: &'static str,
    counts: Vec<(String, u64)>,
}

impl Tally {
    /// A tally of these classes.
    #[must_use]
    pub fn new(title: &'static str, classes: &[&str]) -> Self {
        let counts = classes.iter().map(|&c| (c.to_string(), 0)).collect();
        Self { title, counts }
    }

    /// Announce a class whose name is put together.
    pub fn announce(&mut self, class: String) {
        self.counts.push((class, 0));
    }

    /// Count one for `class`, if `reached`.
    ///
    /// # Panics
    /// If nobody announced the class.
    pub fn note(&mut self, class: &str, reached: bool) {
        let place = self.counts.iter().position(|(name, _)| name == class);
        let place = place.unwrap_or_else(|| panic!("{}: no class {class}", self.title));
        self.counts[place].1 += u64::from(reached);
    }

    /// Print all counts.
    ///
    /// # Errors
    /// The classes that were not reached.
    pub fn report(&self) -> Result<(), String> {
        println!("{}", self.title);
        for (name, count) in &self.counts {
            println!("  {count:>8}  {name}");
        }
        let missed = self.counts.iter().filter(|(_, count)| *count == 0);
        let missed: Vec<_> = missed.map(|(name, _)| name.clone()).collect();
        if missed.is_empty() {
            return Ok(());
        }
        Err(format!(
            "{}: not reached: {}",
            self.title,
            missed.join("; ")
        ))
    }
}
