//! Pages in words: runs as 5-9, and a very long list cut, with a count of what is left out.

/// As many runs are told; the rest is counted.
const RUNS: usize = 16;

/// "5-9, 12", of pages that ascend.
pub fn page_list(pages: &[u32]) -> String {
    let runs: Vec<&[u32]> = pages.chunk_by(|page, next| page + 1 == *next).collect();
    let told = runs.iter().take(RUNS).map(|run| one(run)).collect::<Vec<_>>().join(", ");
    match runs.iter().skip(RUNS).map(|run| run.len()).sum::<usize>() {
        0 => told,
        1 => format!("{told}, and 1 page more"),
        more => format!("{told}, and {more} pages more"),
    }
}

/// A run of three or more by its ends.
fn one(run: &[u32]) -> String {
    match run {
        [first, _, .., last] => format!("{first}-{last}"),
        [first, last] => format!("{first}, {last}"),
        [first] => first.to_string(),
        [] => String::new(),
    }
}

#[cfg(test)]
mod tests {
    use super::page_list;

    #[test]
    fn single_pages_pairs_and_runs() {
        assert_eq!(page_list(&[]), "");
        assert_eq!(page_list(&[5]), "5");
        assert_eq!(page_list(&[5, 6, 9]), "5, 6, 9");
        assert_eq!(page_list(&[3, 5, 6, 7, 8, 9, 40, 41, 16_383]), "3, 5-9, 40, 41, 16383");
    }

    #[test]
    fn a_long_list_is_cut_and_counted() {
        let odd: Vec<u32> = (0..17).map(|n| 2 * n + 1).collect();
        assert!(page_list(&odd[..16]).ends_with(", 29, 31"));
        assert!(page_list(&odd).ends_with(", 29, 31, and 1 page more"));
        let mut more = odd.clone();
        more.extend(100..110);
        assert!(page_list(&more).ends_with(", 29, 31, and 11 pages more"));
        let run: Vec<u32> = (1..16_384).collect();
        assert_eq!(page_list(&run), "1-16383");
    }
}
