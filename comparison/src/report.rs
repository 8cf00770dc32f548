//! A report, taken apart for counting and for the marks that it makes.

use crate::rules::Rule;

/// One command's line.
pub struct Line {
    pub rule: Rule,
    pub answer: u8,
    pub plain: bool,
    pub holds: bool,
}

/// What a report says.
pub enum Report {
    /// The file is refused.
    Refused(u8),
    /// The file is read: its lines, and whether it is refuted.
    Read(Vec<Line>, bool),
}

/// The report's parts, where it has the form of section 6.
pub fn parsed(report: &[u8]) -> Option<Report> {
    let body = report.strip_suffix(b"\n")?;
    let mut lines: Vec<&[u8]> = body.split(|byte| *byte == b'\n').collect();
    let last = fields(lines.pop()?);
    if let [(b"refused", number), (b"byte", place)] = last[..] {
        number_of(place)?;
        let number = u8::try_from(number_of(number)?).ok()?;
        return lines.is_empty().then_some(Report::Refused(number));
    }
    let [(b"commands", commands), (b"refused", refused), (b"refuted", refuted)] = last[..] else { return None };
    let lines: Vec<Line> = lines.into_iter().map(line).collect::<Option<_>>()?;
    let nonzero = lines.iter().filter(|line| line.answer != 0).count();
    let totals_fit = number_of(commands)? == lines.len() && number_of(refused)? == nonzero;
    totals_fit.then_some(Report::Read(lines, mark(refuted)?))
}

/// The pairs `key=value` of a line.
fn fields(line: &[u8]) -> Vec<(&[u8], &[u8])> {
    let parted = line.split(|byte| *byte == b' ').map(|field| {
        let place = field.iter().position(|byte| *byte == b'=').unwrap_or(0);
        (&field[..place], &field[(place + 1).min(field.len())..])
    });
    parted.collect()
}

fn line(line: &[u8]) -> Option<Line> {
    match fields(line)[..] {
        [(b"id", _), (b"rule", rule), (b"answer", answer), (b"plain", plain), (b"holds", holds)] => Some(Line {
            rule: Rule::named(rule)?,
            answer: u8::try_from(number_of(answer)?).ok()?,
            plain: mark(plain)?,
            holds: mark(holds)?,
        }),
        _ => None,
    }
}

fn number_of(digits: &[u8]) -> Option<usize> {
    std::str::from_utf8(digits).ok()?.parse().ok()
}

fn mark(word: &[u8]) -> Option<bool> {
    match word {
        b"yes" => Some(true),
        b"no" => Some(false),
        _ => None,
    }
}

#[cfg(test)]
mod tests {
    use super::{parsed, Report};

    #[test]
    fn lines_and_totals() {
        let report = b"id=a rule=assume answer=0 plain=yes holds=yes\nid=t rule=cp_part answer=41 plain=no holds=no\ncommands=2 refused=1 refuted=no\n";
        assert!(matches!(parsed(report), Some(Report::Read(lines, false)) if lines.len() == 2 && lines[1].answer == 41));
        assert!(matches!(parsed(b"refused=6 byte=12\n"), Some(Report::Refused(6))));
    }

    #[test]
    fn other_forms_are_none() {
        for report in [
            "", "refused=6 byte=12", "refused=6 byte=\n", "commands=1 refused=0 refuted=no\n",
            "commands=0 refused=0 refuted=maybe\n",
        ] {
            assert!(parsed(report.as_bytes()).is_none(), "{report}");
        }
    }
}
