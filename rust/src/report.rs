//! The figures of a comparison, each with what is asked of it.

enum Bound {
    AtLeast(usize),
    AtMost(usize),
    Exactly(usize),
}

struct Figure {
    name: String,
    count: usize,
    bound: Option<Bound>,
}

impl Figure {
    fn holds(&self) -> bool {
        match self.bound {
            None => true,
            Some(Bound::AtLeast(least)) => self.count >= least,
            Some(Bound::AtMost(most)) => self.count <= most,
            Some(Bound::Exactly(asked)) => self.count == asked,
        }
    }

    fn asked(&self) -> String {
        match self.bound {
            None => String::new(),
            Some(Bound::AtLeast(least)) => format!("at least {least}"),
            Some(Bound::AtMost(most)) => format!("at most {most}"),
            Some(Bound::Exactly(asked)) => format!("exactly {asked}"),
        }
    }
}

/// Figures in the order in which they are told.
#[derive(Default)]
pub struct Report(Vec<Figure>);

impl Report {
    pub fn told(&mut self, name: impl Into<String>, count: usize) {
        self.add(name.into(), count, None);
    }

    pub fn at_least(&mut self, name: impl Into<String>, count: usize, least: usize) {
        self.add(name.into(), count, Some(Bound::AtLeast(least)));
    }

    /// Figures of which the same is asked.
    pub fn each_at_least(
        &mut self,
        least: usize,
        figures: impl IntoIterator<Item = (String, usize)>,
    ) {
        for (name, count) in figures {
            self.at_least(name, count, least);
        }
    }

    pub fn at_most(&mut self, name: impl Into<String>, count: usize, most: usize) {
        self.add(name.into(), count, Some(Bound::AtMost(most)));
    }

    pub fn exactly(&mut self, name: impl Into<String>, count: usize, asked: usize) {
        self.add(name.into(), count, Some(Bound::Exactly(asked)));
    }

    fn add(&mut self, name: String, count: usize, bound: Option<Bound>) {
        self.0.push(Figure { name, count, bound });
    }

    /// Prints a line for each figure; tells whether each is within its bound.
    pub fn print(&self) -> bool {
        for figure in &self.0 {
            let mark = if figure.holds() { ' ' } else { '!' };
            let (count, asked) = (figure.count, figure.asked());
            println!("{mark} {count:>9}  {asked:16}  {}", figure.name);
        }
        self.holds()
    }

    pub fn holds(&self) -> bool {
        self.0.iter().all(Figure::holds)
    }
}

#[cfg(test)]
mod tests {
    use super::Report;

    #[test]
    fn bounds() {
        let mut report = Report::default();
        report.told("told", 0);
        report.at_least("least", 5, 5);
        report.at_most("most", 5, 5);
        report.exactly("asked", 5, 5);
        assert!(report.holds());
        report.at_least("below", 4, 5);
        assert!(!report.holds());
        let mut report = Report::default();
        report.at_most("above", 6, 5);
        assert!(!report.holds());
        for count in [4, 6] {
            let mut report = Report::default();
            report.exactly("beside", count, 5);
            assert!(!report.holds());
        }
    }
}
