// SPDX-License-Identifier: Apache-2.0
//! A page of points: a point is what it is about, and below it lines that begin with a word and a colon.
//!
//! ```text
//! - **Bits 4 to 7 are 0**
//!   - says: `law_table/specs/Answers.AnswerBits`
//!   - by value: `fm3130/src/answer.pin_shown`
//! ```

use std::collections::BTreeMap;

/// A point of a page, with the title that it stands below.
#[derive(Default, PartialEq, Debug)]
pub struct Point {
    pub title: String,
    pub about: String,
    pub lines: BTreeMap<String, String>,
}

impl Point {
    /// The names in code marks of one of its lines.
    pub fn names(&self, label: &str) -> Vec<&str> {
        let line = self.lines.get(label).map_or("", String::as_str);
        names_in(line)
    }
}

/// What stands in code marks.
pub fn names_in(text: &str) -> Vec<&str> {
    text.split('`').skip(1).step_by(2).collect()
}

/// The points of a page. A line that is set in deeper goes on with the line above it.
pub fn points_of(page: &str) -> Vec<Point> {
    let mut points: Vec<Point> = vec![];
    let mut title = String::new();
    let mut label = String::new();
    let mut is_open = false;
    for line in page.lines() {
        if line.starts_with('#') {
            title = line.trim_start_matches(['#', ' ']).to_string();
            is_open = false;
        } else if let Some(about) = line.strip_prefix("- ") {
            points.push(Point {
                title: title.clone(),
                about: about.to_string(),
                ..Point::default()
            });
            label.clear();
            is_open = true;
        } else if !line.starts_with("  ") {
            is_open = false;
        } else if let (true, Some(point)) = (is_open, points.last_mut()) {
            add_line(point, &mut label, line);
        }
    }
    points
}

/// A further line of a point: it begins with a word and a colon, or goes on with what stands above it.
fn add_line(point: &mut Point, label: &mut String, line: &str) {
    let words = line.trim();
    match line
        .strip_prefix("  - ")
        .and_then(|line| line.split_once(": "))
    {
        Some((word, rest)) => {
            *label = word.to_string();
            point.lines.insert(word.to_string(), rest.to_string());
        }
        None if label.is_empty() => point.about += &format!(" {words}"),
        None => *point.lines.get_mut(label).unwrap() += &format!(" {words}"),
    }
}

#[cfg(test)]
mod tests {
    use super::*;

    #[test]
    fn points_are_told_from_other_lines() {
        let page = "# A\nText: `x`\n- **one\n  two**\n  - says: `a`,\n    `b`\n  - code: `c`\n\n  none\n## B\n- three\n";
        let points = points_of(page);
        let told: Vec<(&str, &str)> = points
            .iter()
            .map(|point| (point.title.as_str(), point.about.as_str()))
            .collect();
        assert_eq!(told, [("A", "**one two**"), ("B", "three")]);
        assert_eq!(points[0].names("says"), ["a", "b"]);
        assert_eq!(points[0].names("code"), ["c"]);
        assert!(points[1].names("code").is_empty());
    }
}
