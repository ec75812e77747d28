//! A set of instants as its runs.

/// The runs in order; a run is a longest stretch of consecutive instants, first and last.
#[derive(Debug, Clone, PartialEq, Eq, Default)]
pub struct Runs(Vec<(u64, u64)>);

impl Runs {
    /// The runs in order, each as first and last instant.
    pub fn list(&self) -> &[(u64, u64)] {
        &self.0
    }

    /// No instant at or after t is in the set.
    pub fn gone(&self, t: u64) -> bool {
        self.0.iter().all(|&(_, last)| last < t)
    }

    pub fn contains(&self, t: u64) -> bool {
        self.0.iter().any(|&(first, last)| first <= t && t <= last)
    }

    /// Every instant from t to MAX is in the set.
    pub fn covers(&self, t: u64) -> bool {
        self.0.iter().any(|&(first, last)| first <= t && last == u64::MAX)
    }

    /// The runs that end at t or after it.
    pub fn kept(&self, t: u64) -> Runs {
        Runs(self.0.iter().copied().filter(|&(_, last)| last >= t).collect())
    }

    /// How many runs the instants at t and after it form.
    pub fn count_from(&self, t: u64) -> usize {
        self.0.iter().filter(|&&(_, last)| last >= t).count()
    }

    /// The union with lower..=upper.
    pub fn with(&self, lower: u64, upper: u64) -> Runs {
        if lower > upper {
            return self.clone();
        }
        let (mut before, mut after) = (Vec::new(), Vec::new());
        let (mut first, mut last) = (lower, upper);
        for &run in &self.0 {
            if ends_apart_before(run.1, lower) {
                before.push(run);
            } else if ends_apart_before(upper, run.0) {
                after.push(run);
            } else {
                first = first.min(run.0);
                last = last.max(run.1);
            }
        }
        before.push((first, last));
        before.append(&mut after);
        Runs(before)
    }
}

/// A stretch that ends at `end` and one that begins at `start` have an instant between them.
fn ends_apart_before(end: u64, start: u64) -> bool {
    end < start && start - end > 1
}

#[cfg(test)]
mod tests {
    use super::*;

    fn added(runs: &[(u64, u64)], lower: u64, upper: u64) -> Vec<(u64, u64)> {
        Runs(runs.to_vec()).with(lower, upper).0
    }

    #[test]
    fn p1_to_p5() {
        assert_eq!(added(&[(0, 1)], 2, 3), [(0, 3)]);
        assert_eq!(added(&[(0, 1), (4, 5)], 2, 3), [(0, 5)]);
        assert_eq!(added(&[(0, 1)], 3, 2), [(0, 1)]);
        assert_eq!(added(&[(0, 1), (10, 20)], 5, 9), [(0, 1), (5, 20)]);
        assert_eq!(added(&[(0, 1), (10, 20), (30, 40)], 15, 29), [(0, 1), (10, 40)]);
    }

    /// Every set of instants 0 to 7 and every addition there, against the instants one by one.
    #[test]
    fn small_sets() {
        let runs_of = |bits: u32| {
            let mut runs: Vec<(u64, u64)> = Vec::new();
            for t in (0..8).filter(|t| bits >> t & 1 == 1) {
                match runs.last_mut() {
                    Some(run) if run.1 + 1 == t => run.1 = t,
                    _ => runs.push((t, t)),
                }
            }
            runs
        };
        for bits in 0..256u32 {
            for lower in 0..8u64 {
                for upper in lower..8 {
                    let more = (lower..=upper).fold(bits, |all, t| all | 1 << t);
                    assert_eq!(added(&runs_of(bits), lower, upper), runs_of(more));
                }
            }
        }
    }

    #[test]
    fn what_is_over_is_dropped() {
        let set = Runs(vec![(0, 1), (3, 5), (7, 7)]);
        assert_eq!(set.kept(1), set);
        assert_eq!(set.kept(2).0, [(3, 5), (7, 7)]);
        assert_eq!(set.kept(5).0, [(3, 5), (7, 7)]);
        assert_eq!(set.kept(6).0, [(7, 7)]);
        assert_eq!(set.kept(8).0, []);
    }

    /// Every set of instants 0 to 7 and every instant there, against the instants one by one.
    #[test]
    fn counts_from_an_instant() {
        for bits in 0..256u32 {
            let set = (0..8).filter(|t| bits >> t & 1 == 1).fold(Runs::default(), |set, t| set.with(t, t));
            for from in 0..9u64 {
                let is = |t: u64| t >= from && set.contains(t);
                let starts = (from..8).filter(|&t| is(t) && (t == 0 || !is(t - 1))).count();
                assert_eq!(set.count_from(from), starts, "{set:?} from {from}");
            }
        }
    }

    #[test]
    fn up_to_max() {
        assert_eq!(added(&[(0, 1)], 3, u64::MAX), [(0, 1), (3, u64::MAX)]);
        assert_eq!(added(&[(5, u64::MAX)], 4, u64::MAX - 1), [(4, u64::MAX)]);
        let set = Runs(vec![(3, u64::MAX)]);
        assert!(set.covers(3) && !set.covers(2) && set.contains(u64::MAX));
    }
}
