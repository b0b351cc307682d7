//! The listing, byte for byte as the independent second program has it.

use crate::common::{done, Folder};

/// A volume after so many calls, drawn by a seed; refused calls are among them.
fn drawn(seed: u64) -> Vec<u16> {
    let noise = crate::common::noise(seed, 400);
    let mut image = vec![0; (8 + seed as usize % 25) * proved::PAGE];
    assert_eq!(proved::format(&mut image, format!("V{seed}").as_bytes(), None).number, 0);
    for draw in noise.chunks_exact(4) {
        let (user, file) = (usize::from(draw[1] % 4), usize::from(draw[2] % 4));
        let (name, count) = (format!("N-{}", draw[3] % 5), usize::from(draw[3] % 6));
        match draw[0] % 8 {
            0 => proved::create_user(&mut image, name.as_bytes()),
            1 => proved::give(&mut image, user, count),
            2 => proved::create_indexed(&mut image, user, name.as_bytes(), &b"TYPE"[..file], 0),
            3 => proved::create_contiguous(&mut image, user, name.as_bytes(), b"", 0, count),
            4 => proved::shrink(&mut image, user, file),
            5 if count == 0 => proved::delete_file(&mut image, user, file),
            6 if count == 0 => proved::delete_user(&mut image, user),
            _ => proved::grow(&mut image, user, file),
        };
    }
    image
}

#[test]
fn the_listing_is_the_second_programs() {
    let folder = Folder::new();
    let mut lines = 0;
    for seed in 1..120 {
        let bytes = nord::store::bytes(&drawn(seed));
        let image = folder.put("disk.img", &bytes);
        let listing = done(&image, "list IMAGE");
        assert_eq!(listing.as_bytes(), second::list(&bytes), "seed {seed}");
        lines += listing.lines().count();
    }
    assert!(lines > 400, "only {lines} lines: the volumes are too empty to tell anything");
}
