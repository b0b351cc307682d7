//! The map of an unsound image: the first holder of each page, and which pages are doubtful.

use super::judge::Judge;
use super::listing::Listing;
use super::Broken;
use crate::map::Page;
use crate::volume_json::Holder;
use serde::Serialize;
use std::path::Path;

/// The pages of the map.
pub fn drawn(judge: &Judge) -> Vec<Page> {
    let page = |page: u32| Page {
        holder: judge.held.first(page),
        mark: judge.mark(page),
    };
    (0..judge.disk.pages()).map(page).collect()
}

/// The map for programs: what the listing has, and the first holder of each page.
#[derive(Serialize)]
pub struct DrawnJson {
    #[serde(flatten)]
    listing: Listing,
    holders: Vec<First>,
    output: Option<String>,
}

/// The first holder of a page, and what is doubtful about it.
#[derive(Serialize)]
struct First {
    #[serde(flatten)]
    numbers: Holder,
    doubts: Vec<&'static str>,
}

impl DrawnJson {
    pub fn of(judge: &Judge, broken: Broken, pages: &[Page], svg: Option<&Path>) -> DrawnJson {
        let first = |page: &Page| First {
            numbers: Holder::from(&page.holder),
            doubts: page.mark.iter().map(|mark| mark.words()).collect(),
        };
        DrawnJson {
            listing: Listing::of(judge, broken),
            holders: pages.iter().map(first).collect(),
            output: svg.map(|path| path.to_string_lossy().into_owned()),
        }
    }
}
