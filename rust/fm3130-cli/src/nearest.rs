// SPDX-License-Identifier: Apache-2.0
//! The known word that a typo may have been.

/// The known word that is nearest to one, if it is near: a letter changed, left out, put in or changed places with
/// its neighbour, one for every three letters.
pub fn nearest<'known>(
    word: &str,
    known: impl IntoIterator<Item = &'known str>,
) -> Option<&'known str> {
    let most = (word.chars().count() / 3).max(1);
    let distances = known.into_iter().map(|one| (distance(word, one), one));
    // A word of one letter is near to every other.
    let near = distances.filter(|(far, one)| *far <= most && one.chars().count() > 2);
    near.min_by_key(|(far, _)| *far).map(|(_, one)| one)
}

/// How many single changes make one word the other.
fn distance(one: &str, other: &str) -> usize {
    let (one, other): (Vec<char>, Vec<char>) = (one.chars().collect(), other.chars().collect());
    let mut rows: Vec<Vec<usize>> = vec![(0..=other.len()).collect()];
    for (i, sign) in one.iter().enumerate() {
        let mut row = vec![i + 1];
        for (j, wanted) in other.iter().enumerate() {
            let above = &rows[i];
            let changed = above[j] + usize::from(sign != wanted);
            let mut least = changed.min(above[j + 1] + 1).min(row[j] + 1);
            let is_swapped = i > 0 && j > 0 && *sign == other[j - 1] && one[i - 1] == *wanted;
            if is_swapped {
                least = least.min(rows[i - 1][j - 1] + 1);
            }
            row.push(least);
        }
        rows.push(row);
    }
    rows[one.len()][other.len()]
}

#[cfg(test)]
mod tests {
    use super::*;

    #[test]
    fn typos_are_near_and_other_words_are_not() {
        let known = ["lost", "gone", "power", "--vcd", "--next-line"];
        let near = |word| nearest(word, known);
        assert_eq!(near("lots"), Some("lost"));
        assert_eq!(near("powr"), Some("power"));
        assert_eq!(near("--vdc"), Some("--vcd"));
        assert_eq!(near("--nextline"), Some("--next-line"));
        assert_eq!(near("Lost"), Some("lost"));
        for far in ["", "t", "jump", "lst\u{1b}x", "powder-room"] {
            assert_eq!(near(far), None, "{far}");
        }
        assert_eq!(nearest("q", ["r", "t"]), None);
    }
}
