//! Plain text of lines that are at most 100 characters long.

/// The longest line.
const COLUMNS: usize = 100;

/// A text that grows by lines.
#[derive(Default)]
pub(crate) struct Page(String);

impl Page {
    /// Adds a line.
    pub(crate) fn line(&mut self, line: &str) {
        self.0 += line.trim_end();
        self.0.push('\n');
    }

    /// Adds `head`, then `items` with a blank between them; lines after the first begin below the
    /// first item. An item is not broken.
    pub(crate) fn wrapped<T: AsRef<str>>(
        &mut self,
        head: &str,
        items: impl IntoIterator<Item = T>,
    ) {
        let indent = head.chars().count();
        let mut line = head.to_string();
        let mut length = indent;
        for item in items {
            let item = item.as_ref();
            let more = item.chars().count();
            if length > indent && length + 1 + more > COLUMNS {
                self.line(&line);
                line = " ".repeat(indent);
                length = indent;
            }
            if length > indent {
                line.push(' ');
                length += 1;
            }
            line += item;
            length += more;
        }
        self.line(&line);
    }

    /// Adds `head`, then the words of `text`, as [`Page::wrapped`] does.
    pub(crate) fn sentence(&mut self, head: &str, text: &str) {
        self.wrapped(head, text.split_whitespace());
    }

    /// Adds an empty line.
    pub(crate) fn gap(&mut self) {
        self.0.push('\n');
    }

    /// The text.
    pub(crate) fn text(self) -> String {
        self.0
    }
}

/// Places in ascending order as items to wrap: runs as `6 to 9`, with commas between.
pub(crate) fn runs(places: &[usize]) -> Vec<String> {
    let breaks = |pair: &[usize; 2]| pair[0] + 1 != pair[1];
    let mut items: Vec<String> = Vec::new();
    let mut start = 0;
    for end in 1..=places.len() {
        if end < places.len() && !breaks(&[places[end - 1], places[end]]) {
            continue;
        }
        let (first, last) = (places[start], places[end - 1]);
        if let Some(before) = items.last_mut() {
            before.push(',');
        }
        items.push(if first == last {
            first.to_string()
        } else {
            format!("{first} to {last}")
        });
        start = end;
    }
    items
}

#[cfg(test)]
mod tests {
    use super::*;

    #[test]
    fn runs_of_places() {
        let words = |places: &[usize]| runs(places).join(" ");
        assert_eq!(words(&[]), "");
        assert_eq!(words(&[3]), "3");
        assert_eq!(words(&[3, 4]), "3 to 4");
        assert_eq!(words(&[0, 2, 3, 4, 9, 2047]), "0, 2 to 4, 9, 2047");
    }

    #[test]
    fn lines_are_wrapped_below_the_first_item() {
        let mut page = Page::default();
        page.wrapped("head  ", (0..40).map(|item| format!("item{item}")));
        page.sentence("", "few  words");
        page.line("trailing  ");
        page.gap();
        let text = page.text();
        let lines: Vec<&str> = text.lines().collect();
        assert!(lines.iter().all(|line| line.len() <= COLUMNS));
        assert!(lines[0].starts_with("head  item0 item1 ") && lines[0].len() > COLUMNS - 7);
        assert!(lines[1].starts_with("      item"));
        assert_eq!(lines[lines.len() - 3..], ["few words", "trailing", ""]);
    }
}
