//! A format of an image that is there: files are lost only where that is asked for.

use crate::broken::with;
use crate::common::{disk, done, fails, noise, run, sample, Folder};

const FORMATTED: &str = "volume BERTH of 154 pages, bit file on page 77\n";

#[test]
fn files_are_lost_only_by_force() {
    let (_folder, image) = sample();
    done(&image, "user add IMAGE FLOCK");
    let said = fails(&image, "format IMAGE BERTH", 64);
    assert_eq!(
        said,
        format!(
            "nord: {}: volume YARD has 2 users and 2 files, which a format loses: nothing is changed without --force \
             (`nord export` copies files out)\n",
            image.display()
        )
    );
    assert_eq!(run(&image, "format IMAGE BERTH --json").json()["number"], 64);
    done(&image, "file delete IMAGE DOCK/LAMBS:DATA");
    done(&image, "user delete IMAGE FLOCK");
    assert!(fails(&image, "format IMAGE BERTH", 64).contains("volume YARD has 1 user and 1 file, which"));
    assert_eq!(done(&image, "format IMAGE BERTH --force"), FORMATTED);
    assert_eq!(done(&image, "list IMAGE"), "VOLUME BERTH PAGES 154 RESERVED 2 UNRESERVED 152\n");
}

/// An empty file is one too.
#[test]
fn users_without_files_need_no_force() {
    let (_folder, image) = disk(154, 20);
    assert_eq!(done(&image, "format IMAGE BERTH"), FORMATTED);
    done(&image, "user add IMAGE DOCK");
    done(&image, "file create IMAGE DOCK/READS");
    fails(&image, "format IMAGE BERTH", 64);
}

#[test]
fn what_is_no_sound_volume_needs_no_force() {
    let (folder, image) = sample();
    let unsound = with(&folder, &image, &[(2, 17, 101)]);
    let noisy = folder.put("noise.img", &noise(3, 154 * 2048));
    let zeros = folder.put("zeros.img", &[0; 154 * 2048]);
    for image in [unsound, noisy, zeros] {
        assert_eq!(done(&image, "format IMAGE BERTH"), FORMATTED, "{}", image.display());
        assert_eq!(done(&image, "check IMAGE"), "sound: 2 of 154 pages are held\n");
    }
}

/// A new image file is never made over another, and force does not change that.
#[test]
fn a_new_image_has_nothing_to_force() {
    let (_folder, image) = sample();
    fails(&image, "format IMAGE BERTH --pages 154", 74);
    let folder = Folder::new();
    assert_eq!(run(&folder.path("new.img"), "format IMAGE BERTH --pages 154 --force").status, 64);
    assert!(folder.names().is_empty());
    assert_eq!(done(&folder.path("new.img"), "format IMAGE BERTH --pages 154"), FORMATTED);
}
