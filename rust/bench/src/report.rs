//! The Markdown tables that the benchmark prints.

use std::time::Duration;

use crate::cases::{Case, Said};

/// What was measured on one case.
pub struct Measured<'a> {
    pub case: &'a Case,
    pub library: (Duration, Said),
    pub plain: (Duration, Said),
}

/// How many times faster than the plain reader the library must be at AMB with
/// 60 nines; elsewhere it is not slower, where neither says Full.
pub const TIMES_FASTER: f64 = 10.0;
const TIMES_FASTER_AT: (&str, usize) = ("AMB", 60);

/// How long a trap may take.
pub const TRAP_LIMIT: Duration = Duration::from_secs(5);

pub const COMPARISON_HEAD: &str = "\
| Table | Words | Library says | Plain says | Library, ms | Plain, ms | Plain / library | |
|---|---|---|---|---|---|---|---|";

pub const TRAP_HEAD: &str = "\
| Table of 254 like rules | Nines | Library says | Library, ms | |
|---|---|---|---|---|";

impl Measured<'_> {
    /// How many times faster than the plain reader the library is.
    pub fn times_faster(&self) -> f64 {
        self.plain.0.as_secs_f64() / self.library.0.as_secs_f64().max(1e-9)
    }

    /// Whether both say the same and the library is quick enough.
    pub fn is_good(&self) -> bool {
        self.library.1 == self.plain.1 && self.times_faster() >= self.wanted()
    }

    /// How many times faster the library must be; where both say Full, any time will do.
    fn wanted(&self) -> f64 {
        match self.plain.1 {
            Said::Full => 0.0,
            _ if (self.case.table_name, self.case.number_of_words) == TIMES_FASTER_AT => {
                TIMES_FASTER
            }
            _ => 1.0,
        }
    }

    /// The line of the comparison.
    pub fn line(&self) -> String {
        format!(
            "| {} | {} | {} | {} | {} | {} | {:.2} | {} |",
            self.case.table_name,
            self.case.number_of_words,
            said(self.library.1),
            said(self.plain.1),
            milliseconds(self.library.0),
            milliseconds(self.plain.0),
            self.times_faster(),
            verdict(self.is_good()),
        )
    }
}

/// The line of a trap table.
pub fn trap_line(name: &str, nines: usize, says: Said, time: Duration) -> String {
    let verdict = verdict(trap_is_good(time));
    format!("| {name} | {nines} | {} | {} | {verdict} |", said(says), milliseconds(time))
}

/// Whether a trap is read in time.
pub fn trap_is_good(time: Duration) -> bool {
    time <= TRAP_LIMIT
}

fn verdict(is_good: bool) -> &'static str {
    if is_good {
        "good"
    } else {
        "NOT as wished"
    }
}

fn said(said: Said) -> String {
    match said {
        Said::Full => "Full".to_string(),
        Said::Items(count) => format!("{count} items"),
    }
}

fn milliseconds(time: Duration) -> String {
    format!("{:.3}", time.as_secs_f64() * 1000.0)
}

#[cfg(test)]
mod tests {
    use super::*;

    fn measured(case: &Case, library: u64, says: Said) -> Measured<'_> {
        Measured {
            case,
            library: (Duration::from_micros(library), says),
            plain: (Duration::from_micros(1000), Said::Items(55)),
        }
    }

    #[test]
    fn a_line_has_times_and_ratio() {
        let case = &crate::cases::cases()[0];
        let line = measured(case, 500, Said::Items(55)).line();
        assert_eq!(line, "| AMB | 10 | 55 items | 55 items | 0.500 | 1.000 | 2.00 | good |");
    }

    #[test]
    fn too_slow_or_another_answer_is_not_good() {
        let case = &crate::cases::cases()[0];
        assert!(!measured(case, 1001, Said::Items(55)).is_good());
        assert!(!measured(case, 100, Said::Full).is_good());
        assert!(measured(case, 1000, Said::Items(55)).is_good());
    }

    #[test]
    fn at_60_nines_the_library_is_ten_times_faster() {
        let case = &crate::cases::cases()[5];
        assert!(!measured(case, 101, Said::Items(55)).is_good());
        assert!(measured(case, 100, Said::Items(55)).is_good());
    }

    #[test]
    fn where_both_say_full_any_time_will_do() {
        let case = &crate::cases::cases()[9];
        let full = |library: u64| Measured {
            plain: (Duration::from_micros(1), Said::Full),
            ..measured(case, library, Said::Full)
        };
        assert!(full(1000).is_good());
        let items = Measured { library: (Duration::ZERO, Said::Items(1)), ..full(1) };
        assert!(!items.is_good());
    }

    #[test]
    fn a_trap_has_5_seconds() {
        assert!(trap_is_good(Duration::from_millis(5000)));
        assert!(!trap_is_good(Duration::from_millis(5001)));
    }

    #[test]
    fn heads_and_lines_have_as_many_columns() {
        let columns = |line: &str| line.matches('|').count();
        let case = &crate::cases::cases()[0];
        let line = measured(case, 1, Said::Full).line();
        assert!(COMPARISON_HEAD.lines().all(|head| columns(head) == columns(&line)));
        let line = trap_line("a", 3, Said::Full, Duration::ZERO);
        assert!(TRAP_HEAD.lines().all(|head| columns(head) == columns(&line)));
    }
}
