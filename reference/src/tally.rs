//! Counts the inputs and differences of one subject, and keeps the smallest inputs that differ.

/// How many differing inputs are shown.
const SHOWN: usize = 3;

pub struct Tally {
    name: &'static str,
    inputs: u64,
    differences: u64,
    /// The smallest so far, by their weight.
    smallest: Vec<(u64, String)>,
    /// How often something occurred.
    occurred: Vec<(&'static str, u64)>,
}

impl Tally {
    pub fn new(name: &'static str) -> Self {
        Self {
            name,
            inputs: 0,
            differences: 0,
            smallest: Vec::new(),
            occurred: Vec::new(),
        }
    }

    /// Counts an input for which it is `so`. What never occurs is reported too.
    #[cfg_attr(not(feature = "plan"), allow(dead_code))]
    pub fn occurs(&mut self, what: &'static str, so: bool) {
        match self.occurred.iter_mut().find(|(other, _)| *other == what) {
            Some((_, times)) => *times += u64::from(so),
            None => self.occurred.push((what, so.into())),
        }
    }

    /// Takes one input in. `show` gives the input and both answers, and is asked only where they
    /// differ and the input is among the smallest.
    pub fn take(&mut self, equal: bool, weight: u64, show: impl FnOnce() -> String) {
        self.inputs += 1;
        if equal {
            return;
        }
        self.differences += 1;
        let at = self.smallest.partition_point(|(w, _)| *w < weight);
        if at == SHOWN {
            return;
        }
        let shown = show();
        // The smallest inputs are the likeliest to come twice.
        if self.smallest.iter().all(|(_, other)| *other != shown) {
            self.smallest.insert(at, (weight, shown));
            self.smallest.truncate(SHOWN);
        }
    }

    /// What was asked for and never occurred.
    #[cfg_attr(not(feature = "jobs"), allow(dead_code))]
    pub fn never(&self) -> Vec<&'static str> {
        let never = self.occurred.iter().filter(|(_, times)| *times == 0);
        never.map(|(what, _)| *what).collect()
    }

    pub fn inputs(&self) -> u64 {
        self.inputs
    }

    /// Prints the subject's line; true where nothing differed.
    pub fn report(self) -> bool {
        let (name, n, d) = (self.name, self.inputs, self.differences);
        println!("compare {name}: {n} inputs, {d} differences");
        for (what, times) in &self.occurred {
            println!("  {name}: {what}: {times}");
        }
        for (_, shown) in &self.smallest {
            eprintln!("  {name}: {shown}");
        }
        d == 0
    }
}
