//! The goals, judged by the figures of the run.

use crate::report::Table;

/// A figure and the most that it may be.
struct Judged {
    goal: &'static str,
    on: String,
    figure: f64,
    limit: f64,
    /// How the figure is told.
    told: String,
}

#[derive(Default)]
pub struct Goals {
    judged: Vec<Judged>,
}

impl Goals {
    /// A goal that the figure is at most the limit. Of several figures for one goal and place the greatest is kept.
    pub fn at_most(&mut self, goal: &'static str, on: &str, figure: f64, limit: f64, told: String) {
        let judged = Judged {
            goal,
            on: on.into(),
            figure,
            limit,
            told,
        };
        match self.judged.iter_mut().find(|other| other.goal == goal && other.on == on) {
            Some(other) if other.figure < figure => *other = judged,
            Some(_) => (),
            None => self.judged.push(judged),
        }
    }

    /// The rows of one goal together, goals in the order in which they came.
    fn by_goal(&self) -> Vec<&Judged> {
        let first = |goal: &str| self.judged.iter().position(|judged| judged.goal == goal);
        let mut rows: Vec<&Judged> = self.judged.iter().collect();
        rows.sort_by_key(|judged| first(judged.goal));
        rows
    }

    pub fn table(&self) -> Table {
        let mut table = Table::new("The goals", "", &["goal", "on", "limit", "figure", "verdict"]);
        for judged in self.by_goal() {
            table.row(vec![
                judged.goal.into(),
                judged.on.clone(),
                limit(judged.limit),
                judged.told.clone(),
                verdict(judged),
            ]);
        }
        table
    }
}

fn limit(limit: f64) -> String {
    if limit >= 1000.0 {
        crate::report::grouped(limit as u64)
    } else {
        format!("{limit:.2}")
    }
}

fn verdict(judged: &Judged) -> String {
    if judged.figure <= judged.limit {
        return "met".into();
    }
    format!("missed: {:.2} times the limit", judged.figure / judged.limit)
}

/// The straight line through some points that is nearest in relation to their heights: its height at 0, its slope, and the farthest that a
/// point is from it, as a share of the point's height.
pub struct Line {
    pub fixed: f64,
    pub slope: f64,
    pub farthest: f64,
}

impl Line {
    pub fn through(points: &[(f64, f64)]) -> Line {
        let sum = |of: &dyn Fn(f64, f64) -> f64| -> f64 { points.iter().map(|&(x, y)| of(x, y) / (y * y)).sum() };
        let (n, x, y) = (sum(&|_, _| 1.0), sum(&|x, _| x), sum(&|_, y| y));
        let (xx, xy) = (sum(&|x, _| x * x), sum(&|x, y| x * y));
        let slope = (n * xy - x * y) / (n * xx - x * x);
        let fixed = (y - slope * x) / n;
        let away = |&(x, y): &(f64, f64)| ((fixed + slope * x - y) / y).abs();
        Line {
            fixed,
            slope,
            farthest: points.iter().map(away).fold(0.0, f64::max),
        }
    }
}

#[cfg(test)]
mod tests {
    use super::*;

    #[test]
    fn a_line_through_points_of_a_line() {
        let line = Line::through(&[(1.0, 5.0), (2.0, 7.0), (10.0, 23.0)]);
        assert!((line.fixed - 3.0).abs() < 1e-9 && (line.slope - 2.0).abs() < 1e-9 && line.farthest < 1e-9);
    }

    #[test]
    fn verdicts_come_from_the_figures() {
        let mut goals = Goals::default();
        goals.at_most("g", "v", 1.5, 1.0, "1.5".into());
        goals.at_most("g", "w", 0.5, 1.0, "0.5".into());
        goals.at_most("g", "w", 1.0, 1.0, "1.0".into());
        let rows = goals.table().rows;
        assert_eq!((rows.len(), rows[1][3].as_str()), (2, "1.0"));
        assert_eq!((rows[0][4].as_str(), rows[1][4].as_str()), ("missed: 1.50 times the limit", "met"));
    }
}
