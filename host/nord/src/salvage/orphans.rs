//! Pages that are reserved and that nobody holds, copied out of an image before a salvage makes them free: what stands there may be somebody's
//! reads, and the next file that grows takes them.

use crate::answers::pages;
use crate::copies::{self, Copied, Sort, Wanted};
use crate::failure::Failure;
use std::path::{Path, PathBuf};

/// Where the pages are, how many were written, and how many were there already.
pub struct CopiedOut {
    pub folder: PathBuf,
    pub written: usize,
    pub there: usize,
}

/// The name of a page's file.
pub fn file_name(page: u32) -> String {
    format!("page-{page:05}.bin")
}

/// Copies the pages to files of that folder, each whole or not at all. A file that is there with the same bytes is right already; where one has
/// other bytes, nothing is written.
pub fn copy_out(image: &[u16], orphans: &[u32], folder: &Path) -> Result<CopiedOut, Failure> {
    let wanted = |page: &u32| Wanted {
        target: folder.join(file_name(*page)),
        pages: vec![*page],
    };
    let wanted: Vec<Wanted> = orphans.iter().map(wanted).collect();
    let sort = Sort {
        nothing: "no page is copied out, and the image is as it was",
        is_name: |name| name.starts_with("page-"),
    };
    let Copied { written, there } = copies::copy_out(image, &wanted.iter().collect::<Vec<_>>(), &sort)?;
    Ok(CopiedOut {
        folder: folder.to_path_buf(),
        written,
        there,
    })
}

impl CopiedOut {
    /// "2 pages are in reads: 1 copied out, 1 there already".
    pub fn words(&self) -> String {
        let CopiedOut { folder, written, there } = self;
        let all = pages((written + there) as u32);
        match there {
            0 => format!("{all} copied out to {}", folder.display()),
            _ => format!(
                "{all} copied out to {}: {written} written, {there} there already with the same words",
                folder.display()
            ),
        }
    }
}
