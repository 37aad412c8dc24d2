//! Compares a listing with another, line by line and byte by byte.

/// The first line in which two listings differ.
#[derive(Clone, Debug, PartialEq, Eq)]
pub struct Difference {
    /// The line's number, from 0.
    pub line: usize,
    pub own: String,
    pub theirs: String,
    /// The name of the first differing number, by the listing's first line, if it has one.
    pub column: Option<String>,
}

/// What a comparison found, in words, and whether everything agreed.
pub struct Verdict {
    pub agreed: bool,
    pub words: String,
}

impl Verdict {
    /// The verdict on an outcome, what was said before it in front.
    pub fn new(before: String, outcome: Result<String, String>) -> Verdict {
        let agreed = outcome.is_ok();
        let words = before + &outcome.unwrap_or_else(|failure| failure);
        Verdict { agreed, words }
    }
}

/// The first line in which the two listings differ, if any.
pub fn first_difference(all_own: &[u8], theirs: &[u8]) -> Option<Difference> {
    if all_own == theirs {
        return None;
    }
    let mut own_lines = all_own.split_inclusive(|byte| *byte == b'\n');
    let mut their_lines = theirs.split_inclusive(|byte| *byte == b'\n');
    let mut line = 0;
    loop {
        let (own, theirs) = (own_lines.next(), their_lines.next());
        if own != theirs {
            let (own, theirs) = (shown_line(own), shown_line(theirs));
            return Some(Difference {
                line,
                column: column_of(all_own, line, &own, &theirs),
                own,
                theirs,
            });
        }
        line += 1;
    }
}

/// The name of the first number in which two lines of numbers differ, if the first line names it,
/// or the place of a memory's first differing word.
fn column_of(listing: &[u8], line: usize, own: &str, theirs: &str) -> Option<String> {
    let title = listing.split(|byte| *byte == b'\n').next()?;
    let names: Vec<_> = title.split(|byte| *byte == b' ').collect();
    let pairs = own.split(' ').zip(theirs.split(' '));
    let numbers = |text: &str| {
        text.bytes()
            .next()
            .map_or(false, |byte| byte.is_ascii_digit())
    };
    let named = !numbers(&title.escape_ascii().to_string());
    let at = pairs.clone().position(|(own, theirs)| own != theirs)?;
    if [own, theirs].iter().all(|text| text.starts_with("memory ")) {
        return Some(format!("the memory's word at place {}", at - 1));
    }
    let name = names.get(at)?.escape_ascii().to_string();
    Some(name).filter(|_| line > 0 && named && numbers(own) && numbers(theirs))
}

/// The longest piece of a line that is shown.
const LONGEST_SHOWN: usize = 720;

/// A line as it is shown: odd bytes visible, a missing line or line feed said.
fn shown_line(line: Option<&[u8]>) -> String {
    let line = match line {
        None => return "(no line: the listing has ended)".to_string(),
        Some(line) => line,
    };
    let (text, end) = match line.strip_suffix(b"\n") {
        Some(text) => (text, ""),
        None => (line, " (no line feed)"),
    };
    let piece = &text[..text.len().min(LONGEST_SHOWN)];
    let cut = if piece.len() < text.len() { ".." } else { "" };
    format!("{}{}{}", piece.escape_ascii(), cut, end)
}

/// A whole listing as it is shown, each line indented, a long one cut.
pub fn shown_listing(listing: &[u8]) -> String {
    let lines = listing.split_inclusive(|byte| *byte == b'\n');
    lines
        .take(40)
        .map(|line| format!("    {}\n", shown_line(Some(line))))
        .collect()
}

impl Difference {
    /// The two lines in words.
    pub fn shown(&self) -> String {
        let lines = format!("  own:     {}\n  COMMAND: {}\n", self.own, self.theirs);
        match &self.column {
            None => lines,
            Some(name) => format!("{}  the first differing number is {}\n", lines, name),
        }
    }
}

#[cfg(test)]
mod tests {
    use super::*;

    /// The line and both texts of the first difference.
    fn found(own: &str, theirs: &str) -> Option<(usize, String, String)> {
        first_difference(own.as_bytes(), theirs.as_bytes())
            .map(|found| (found.line, found.own, found.theirs))
    }

    /// What `found` gives for these.
    fn at(line: usize, own: &str, theirs: &str) -> Option<(usize, String, String)> {
        Some((line, own.to_string(), theirs.to_string()))
    }

    #[test]
    fn the_first_differing_line() {
        assert_eq!(found("a\nb\n", "a\nb\n"), None);
        assert_eq!(found("a\nb\nc\n", "a\nx\ny\n"), at(1, "b", "x"));
        assert_eq!(found("a\nb\n", "a\nb"), at(1, "b", "b (no line feed)"));
        assert_eq!(found("a\n", "a\r\n"), at(0, "a", "a\\r"));
        let ended = "(no line: the listing has ended)";
        assert_eq!(found("a\nb\n", "a\n"), at(1, "b", ended));
        assert_eq!(found("a\n", "a\n\n"), at(1, ended, ""));
    }

    #[test]
    fn the_first_differing_column() {
        let column = |own: &str, theirs: &str| {
            first_difference(own.as_bytes(), theirs.as_bytes()).and_then(|found| found.column)
        };
        let own = "entry answer value\n0 0 5\n";
        assert_eq!(
            column(own, "entry answer value\n0 0 6\n"),
            Some("value".to_string())
        );
        assert_eq!(
            column(own, "entry answer value\n0 1 6\n"),
            Some("answer".to_string())
        );
        assert_eq!(column(own, "entry answer value\nfault 30 6\n"), None);
        assert_eq!(column(own, "entry answer value\n"), None);
        assert_eq!(column(own, "entry answer\n0 0 5\n"), None);
        assert_eq!(column("0 1\n7 2\n", "0 1\n7 3\n"), None);
        assert_eq!(
            column("entry\nmemory 1 2 3\n", "entry\nmemory 1 2 4\n"),
            Some("the memory's word at place 2".to_string())
        );
    }
}
