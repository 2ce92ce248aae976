//! What was meant by a word that is none of those that are known.

/// How many letters have to be changed, put in, taken out or exchanged with the next to make one word of another.
fn distance(a: &str, b: &str) -> usize {
    let (a, b): (Vec<char>, Vec<char>) = (a.chars().collect(), b.chars().collect());
    // of so many letters of each word
    let mut far = vec![vec![0; b.len() + 1]; a.len() + 1];
    for i in 0..=a.len() {
        for j in 0..=b.len() {
            far[i][j] = match (i, j) {
                (0, n) | (n, 0) => n,
                _ => (far[i - 1][j - 1] + usize::from(a[i - 1] != b[j - 1]))
                    .min(far[i - 1][j] + 1)
                    .min(far[i][j - 1] + 1),
            };
            if i > 1 && j > 1 && a[i - 2..i] == [b[j - 1], b[j - 2]] {
                far[i][j] = far[i][j].min(far[i - 2][j - 2] + 1);
            }
        }
    }
    far[a.len()][b.len()]
}

/// The longest word that is compared, in bytes: what `distance` takes grows with the product of two lengths.
const LONGEST: usize = 255;

/// The nearest of the words that are known, letter case aside: one that begins with the word, or of which at most a third
/// is otherwise. Words above [`LONGEST`] are near to none.
pub fn of<'w>(word: &str, known: impl Iterator<Item = &'w str>) -> Option<&'w str> {
    if LONGEST < word.len() {
        return None;
    }
    let known = known.filter(|other| other.len() <= LONGEST);
    let word = word.to_ascii_lowercase();
    let far = |other: &str| {
        let other = other.to_ascii_lowercase();
        let is_begun = word.trim_start_matches('-').len() > 1 && other.starts_with(&word);
        if is_begun {
            0
        } else {
            distance(&word, &other)
        }
    };
    let near = known.map(|other| (far(other), other)).min_by_key(|(far, _)| *far);
    near.filter(|(far, other)| far * 3 <= other.trim_start_matches('-').len()).map(|(_, other)| other)
}

/// What is asked of somebody who may have meant another word; nothing if none is near.
pub fn question<'w>(word: &str, known: impl Iterator<Item = &'w str>) -> String {
    of(word, known).map_or(String::new(), |near| format!("; is {near} meant?"))
}

#[cfg(test)]
mod tests {
    use super::of;

    #[test]
    fn words_that_are_meant() {
        let known = ["layout", "owner", "reasons", "--table", "--from-1", "--json"];
        let meant = |word| of(word, known.into_iter());
        assert_eq!(meant("lay"), Some("layout"));
        assert_eq!(meant("LAYUOT"), Some("layout"));
        assert_eq!(meant("ownr"), Some("owner"));
        assert_eq!((of("sier", ["SIRE"].into_iter()), of("dam", ["SIRE"].into_iter())), (Some("SIRE"), None));
        assert_eq!(of("mean-wieght", ["TAG", "MEAN-WEIGHT"].into_iter()), Some("MEAN-WEIGHT"));
        assert_eq!(meant("--tables"), Some("--table"));
        assert_eq!(meant("--form-1"), Some("--from-1"));
        assert_eq!(meant("--jsn"), Some("--json"));
        assert_eq!(meant("convert"), None);
        assert_eq!(meant("--"), None);
        let (long, longer) = ("B".repeat(255), "B".repeat(65_535));
        assert_eq!(of(&long[1..], [long.as_str()].into_iter()), Some(long.as_str()));
        assert_eq!((of(&longer, [longer.as_str()].into_iter()), of("B", [longer.as_str()].into_iter())), (None, None));
    }
}
