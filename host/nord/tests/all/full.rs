//! A disk that is nearly full: which pages a file gets that grows to the last of them, and where contiguous files still fit.

use crate::common::{disk, done, fails};
use std::path::Path;

/// Contiguous files of one page from the end down, and every second of them deleted: no two free pages lie side by side.
fn scattered(image: &Path, files: u32) {
    for n in 0..files {
        done(image, &format!("file create IMAGE DOCK/N-{n} --contiguous 1"));
    }
    for n in (0..files).step_by(2) {
        done(image, &format!("file delete IMAGE DOCK/N-{n}"));
    }
}

#[test]
fn a_file_grows_to_the_last_page() {
    for (pages, last) in [
        (64, "grown by 1 page: 63\n"),
        (65, "grown by 1 page: 64\n"),
        (79, "grown by 1 page: 78\n"),
    ] {
        let (_folder, image) = disk(pages, pages - 6);
        done(&image, "file create IMAGE DOCK/READS:DATA");
        let grown = done(&image, &format!("file grow IMAGE DOCK/READS:DATA {}", pages - 8));
        assert!(
            grown.starts_with(&format!("grown by {} pages: 5 7 8 9 10 11 12 13 14 15 16 17 18 ", pages - 8)),
            "{grown}"
        );
        assert_eq!(done(&image, "file grow IMAGE DOCK/READS:DATA"), last);
        assert_eq!(done(&image, "check IMAGE"), format!("sound: {pages} of {pages} pages are held\n"));
        assert!(fails(&image, "file grow IMAGE DOCK/READS:DATA", 9).contains("given less used is below the pages needed"));
        assert!(fails(&image, "file create IMAGE DOCK/RUN --contiguous 1", 9).contains("given less used is below the pages needed"));
        assert_eq!(done(&image, "user add IMAGE FLOCK"), "user 1 FLOCK added\n");
        assert!(fails(&image, "file create IMAGE FLOCK/READS", 10).contains("unreserved is below the system pages needed"));
        done(&image, "file shrink IMAGE DOCK/READS:DATA");
        assert_eq!(done(&image, "file grow IMAGE DOCK/READS:DATA"), last);
    }
}

/// The bit file is on page 32, the new files' entries on page 4: free are 5..31 and 33..63.
#[test]
fn contiguous_files_fill_a_disk_from_its_end() {
    let (_folder, image) = disk(64, 58);
    let first_page = |file: &str| done(&image, &format!("address IMAGE DOCK/{file} 0"));
    for (file, count, page) in [("A", 31, 33), ("B", 16, 16), ("C", 10, 6), ("D", 1, 5)] {
        done(&image, &format!("file create IMAGE DOCK/{file} --contiguous {count}"));
        assert_eq!(first_page(file), format!("page {page}\n"));
    }
    assert_eq!(done(&image, "check IMAGE"), "sound: 64 of 64 pages are held\n");
    done(&image, "file delete IMAGE DOCK/B");
    assert!(fails(&image, "file create IMAGE DOCK/E --contiguous 17", 9).contains("given less used is below the pages needed"));
    for (file, count, page) in [("E", 15, 17), ("F", 1, 16)] {
        done(&image, &format!("file create IMAGE DOCK/{file} --contiguous {count}"));
        assert_eq!(first_page(file), format!("page {page}\n"));
    }
}

/// The one-page files had 39 down to 24; the bit file is on page 20, REST has 5..19 and MORE 21..23. So 25, 27, .. 39 are free.
#[test]
fn scattered_pages_are_no_run() {
    let (_folder, image) = disk(40, 34);
    scattered(&image, 16);
    done(&image, "file create IMAGE DOCK/REST --contiguous 15");
    done(&image, "file create IMAGE DOCK/MORE --contiguous 3");
    assert_eq!(done(&image, "check IMAGE"), "sound: 32 of 40 pages are held\n");
    for count in [2, 8] {
        let said = fails(&image, &format!("file create IMAGE DOCK/RUN --contiguous {count}"), 11);
        assert!(
            said.contains("there is no run of that many free pages for a contiguous file"),
            "{said}"
        );
    }
    done(&image, "file create IMAGE DOCK/RUN --contiguous 1");
    assert_eq!(done(&image, "address IMAGE DOCK/RUN 0"), "page 39\n");
    done(&image, "file create IMAGE DOCK/READS:DATA");
    assert_eq!(
        done(&image, "file grow IMAGE DOCK/READS:DATA 6"),
        "grown by 6 pages: 25 29 31 33 35 37\n"
    );
    assert_eq!(done(&image, "who IMAGE 27"), "index block 0 of DOCK/READS:DATA (user 0 file 6)\n");
    assert_eq!(done(&image, "check IMAGE"), "sound: 40 of 40 pages are held\n");
}
