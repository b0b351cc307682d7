//! Images that are laid out to cost as much as they can.
#![allow(dead_code)]

/// A volume whose 2,048 object pages are one: 65,536 files of so many pages, most subindexed to one tree, the others runs over all pages.
pub fn shared_tree(pages: usize, of_a_file: u32) -> Vec<u16> {
    let mut image = vec![0; pages * proved::PAGE];
    assert_eq!(proved::format(&mut image, b"SHARED", None).number, 0);
    for n in 0..65 {
        assert_eq!(proved::create_user(&mut image, format!("U{n}").as_bytes()).number, 0);
    }
    let subindex = usize::from(image[1017]);
    for n in 0..4 {
        image[subindex * 1024 + 2 * n + 1] = 4000;
    }
    for slot in 0..512 {
        image[4000 * 1024 + 2 * slot + 1] = 4001;
        image[5000 * 1024 + 2 * slot + 1] = 5001 + slot as u16;
        for block in 0..512 {
            image[(5001 + block) * 1024 + 2 * slot + 1] = 6000;
        }
    }
    for entry in 0..32 {
        let at = 4001 * 1024 + 32 * entry;
        image[at] = 32768;
        let pointer: [u16; 2] = if entry < 28 { [32768, 5000] } else { [0, 1] };
        let count = [(of_a_file >> 16) as u16, of_a_file as u16];
        image[at + 26..at + 32].copy_from_slice(&[count[0], count[1], 0, 0, pointer[0], pointer[1]]);
    }
    image
}
