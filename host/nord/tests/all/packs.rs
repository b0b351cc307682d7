//! Packs of more than 16,384 pages, whose bit file has several pages: made, asked, damaged and mended as a user does.

use crate::broken::with;
use crate::common::{done, fails, run, Folder};
use serde_json::json;
use std::path::{Path, PathBuf};
use std::sync::OnceLock;

/// The two packs of document 02's T-06.
const PACK_75: u32 = 37_035;
const PACK_288: u32 = 140_733;

/// A formatted pack of so many pages, and what the format says.
fn pack(pages: u32) -> (Folder, PathBuf, String) {
    let folder = Folder::new();
    let image = folder.path("pack.img");
    let said = done(&image, &format!("format IMAGE PACK --pages {pages}"));
    (folder, image, said)
}

/// The 75 MB pack with a user, an indexed file of one page, page 5, and a contiguous one that has the last 18,000 pages. It is made once, by the
/// library's calls, and each test has a copy.
fn used_pack() -> (Folder, PathBuf) {
    static PACK: OnceLock<Vec<u8>> = OnceLock::new();
    let bytes = PACK.get_or_init(|| {
        let mut image = vec![0; PACK_75 as usize * proved::PAGE];
        for reply in [
            proved::format(&mut image, b"PACK", None),
            proved::create_user(&mut image, b"DOCK"),
            proved::give(&mut image, 0, 20_000),
            proved::create_indexed(&mut image, 0, b"READS", b"DATA", 0),
            proved::grow(&mut image, 0, 0),
            proved::create_contiguous(&mut image, 0, b"LAMBS", b"DATA", 0, 18_000),
        ] {
            assert_eq!(reply.number, 0);
        }
        nord::store::bytes(&image)
    });
    let folder = Folder::new();
    let image = folder.put("pack.img", bytes);
    (folder, image)
}

/// Whether all the words are in a text.
fn has(text: &str, words: &[&str]) {
    words
        .iter()
        .for_each(|words| assert!(text.contains(words), "{words:?} in:\n{text}"));
}

#[test]
fn one_bit_page_up_to_16384_pages_and_two_from_there_on() {
    for (pages, place, held) in [(16_384, "page 8192", 2), (16_385, "pages 8192 to 8193", 3)] {
        let (_folder, image, said) = pack(pages);
        assert_eq!(said, format!("volume PACK of {pages} pages, bit file on {place}\n"));
        assert_eq!(done(&image, "check IMAGE"), format!("sound: {held} of {pages} pages are held\n"));
        let unreserved = pages - held;
        assert_eq!(
            done(&image, "list IMAGE"),
            format!("VOLUME PACK PAGES {pages} RESERVED {held} UNRESERVED {unreserved}\n")
        );
    }
}

#[test]
fn a_bit_file_lies_in_the_volume_as_a_whole() {
    let folder = Folder::new();
    let new = folder.path("new.img");
    for first in [0, 16_384, 4_294_967_295_u32] {
        let said = run(&new, &format!("format IMAGE PACK --pages 16385 --bit-page {first}"));
        assert_eq!(said.status, 2);
        let last = u64::from(first) + 1;
        has(
            &said.err,
            &[&format!(
                ": the 2 pages of the bit file would be {first} to {last}, and pages 1 to 16384 are there for it\n"
            )],
        );
    }
    assert!(folder.names().is_empty());
    let said = run(&new, "format IMAGE PACK --pages 16385 --bit-page 16383 --json").json();
    let wanted = json!({ "number": 0, "volume": "PACK", "pages": 16385, "bit_page": 16383, "bit_pages": 2 });
    assert_eq!(said, wanted);
    assert_eq!(done(&new, "check IMAGE"), "sound: 3 of 16385 pages are held\n");
}

#[test]
fn who_and_page_say_which_bit_page_and_of_which_pages() {
    let (_folder, image) = used_pack();
    assert_eq!(done(&image, "who IMAGE 18516"), "free\n");
    assert_eq!(done(&image, "who IMAGE 18517"), "first of the bit file's 3 pages\n");
    assert_eq!(done(&image, "who IMAGE 18519"), "third of the bit file's 3 pages\n");
    assert_eq!(
        run(&image, "who IMAGE 18518 --json").json(),
        json!({ "number": 0, "page": 18518, "holder": "bit file", "kind": 2, "user": 0, "file": 0, "position": 1 })
    );
    has(
        &done(&image, "page IMAGE 18518"),
        &[
            "  held as   second of the bit file's 3 pages\n",
            "  its bit   set: the page is reserved (bit 6 of word 133 of page 18518)\n",
            "     0 (0)      000000        0  ..  pages 16384 to 16399: none reserved\n",
            "   133 (205)    000340      224  ..  pages 18512 to 18527: reserved 18517 to 18519\n",
            "   165 (245)    174000    63488  ..  pages 19024 to 19039: reserved 19035 to 19039\n",
        ],
    );
    has(
        &done(&image, "page IMAGE 18519 266"),
        &[
            "  it is     bits of pages 37024 to 37034, word 266 of the third of the bit file's 3 pages\n",
            "  it says   all reserved\n",
            "  bit 10    1  page 37034, data page 17999 of DOCK/LAMBS:DATA (user 0 file 1)\n",
        ],
    );
    assert!(!done(&image, "page IMAGE 18519 266").contains("bit 11  "));
}

#[test]
fn files_lie_past_the_first_bit_page_and_come_back() {
    let (folder, image) = used_pack();
    assert_eq!(done(&image, "address IMAGE DOCK/LAMBS:DATA 0"), "page 19035\n");
    assert_eq!(done(&image, "check IMAGE"), "sound: 18010 of 37035 pages are held\n");
    let listing = "VOLUME PACK PAGES 37035 RESERVED 18010 UNRESERVED 17027\nUSER 0 DOCK GIVEN 20000 USED 18002\n\
                   FILE 0 READS:DATA PAGES 1 INDEXED\nFILE 1 LAMBS:DATA PAGES 18000 CONTIGUOUS\n";
    assert_eq!(done(&image, "list IMAGE"), listing);
    let lambs: Vec<u8> = (0..18_000u32)
        .flat_map(|page| [page as u8, (page >> 8) as u8].repeat(1024))
        .collect();
    let input = folder.put("lambs.bin", &lambs);
    done(&image, &format!("write IMAGE DOCK/LAMBS:DATA {}", input.display()));
    let output = folder.path("out.bin");
    done(&image, &format!("read IMAGE DOCK/LAMBS:DATA {}", output.display()));
    assert!(std::fs::read(output).unwrap() == lambs);
    assert_eq!(done(&image, "file delete IMAGE DOCK/LAMBS:DATA"), "user 0 file 1 deleted\n");
    assert_eq!(done(&image, "check IMAGE"), "sound: 10 of 37035 pages are held\n");
}

#[test]
fn a_wrong_bit_of_the_second_bit_page_is_told_with_its_page() {
    let (folder, image) = used_pack();
    let broken = with(&folder, &image, &[(18_518, 0, 1 << 6)]);
    has(
        &fails(&broken, "check IMAGE", 3),
        &[
            "rule 9 is broken at page 18518, word 0\n",
            "  place     bits of pages 16384 to 16399, word 0 of the second of the bit file's 3 pages\n",
            "  there     octal 000100, decimal 64: reserved 16390\n",
            "  expected  0: bit 6 clear, as nobody holds page 16390\n",
        ],
    );
    let broken = with(&folder, &image, &[(18_519, 266, 0)]);
    let said = fails(&broken, "check IMAGE", 3);
    has(
        &said,
        &[
            "rule 9 is broken at page 18519, word 266\n",
            "  expected  2047: bit 0 set, as page 37024 is data page 17989 of DOCK/LAMBS:DATA (user 0 file 1); 10 more bits",
        ],
    );
    let broken = with(&folder, &image, &[(0, 1021, 37_033)]);
    has(
        &fails(&broken, "check IMAGE", 3),
        &[
            "rule 1 is broken at page 0, word 1020\n",
            "  expected  a page in 1..37032, without flags, so that all 3 pages of the bit file lie in 1..37034\n",
        ],
    );
    has(
        &done(&broken, "page IMAGE 37034"),
        &[
            "  held as   second of the bit file's 3 pages\n",
            "  its bit   not to be found: the bit file pointer is wrong\n",
        ],
    );
    let beyond = with(&folder, &image, &[(18_519, 266, 0xffff), (18_519, 267, 0xffff), (18_519, 1023, 7)]);
    assert_eq!(done(&beyond, "check IMAGE"), "sound: 18010 of 37035 pages are held\n");
}

#[test]
fn a_salvage_mends_all_bit_pages() {
    let (folder, image) = used_pack();
    let sound = std::fs::read(&image).unwrap();
    let damage = [
        (18_517, 0, 0),
        (18_518, 0, 1 << 6),
        (18_518, 1023, 0),
        (18_519, 266, 0xf800),
        (18_519, 300, 9),
    ];
    let broken = with(&folder, &image, &damage);
    let said = done(&broken, &format!("salvage IMAGE --orphans {}", folder.path("orphans").display()));
    has(
        &said,
        &[
            "mended: 4 words changed, and the image is sound\n",
            "  34 pages marked free that are held: 0-6, 32752-32767, 37024-37034\n",
            "  1 page reserved that no file and nothing else holds: 16390\n",
            "  18518     0     000100     000000  bits of pages 16384 to 16399, word 0 of the second of the bit file's 3 pages\n",
            "  18519   266     174000     177777  bits of pages 37024 to 37034, word 266 of the third of the bit file's 3 pages\n",
        ],
    );
    assert!(folder.path("orphans").join("page-16390.bin").exists());
    assert_eq!(done(&broken, "check IMAGE"), "sound: 18010 of 37035 pages are held\n");
    assert_eq!(done(&broken, "salvage IMAGE"), "sound already: nothing to mend\n");
    let mended = std::fs::read(&broken).unwrap();
    let differ: Vec<usize> = (0..sound.len()).filter(|at| sound[*at] != mended[*at]).collect();
    let last = 2048 * 18_519;
    assert_eq!(
        differ,
        [last + 2 * 266, last + 2 * 300 + 1],
        "bits from P on stay as the damage left them"
    );
}

/// The rows of a map in a terminal, and what stands below them.
fn rows(text: &str) -> (Vec<&str>, Vec<&str>) {
    let lines: Vec<&str> = text.lines().skip(2).collect();
    let end = lines.iter().position(|line| line.is_empty()).unwrap();
    (lines[..end].to_vec(), lines[end..].to_vec())
}

#[test]
fn the_map_fits_a_screen() {
    let (_folder, image) = used_pack();
    let text = done(&image, "map IMAGE");
    let (rows, below) = rows(&text);
    assert!(text.lines().all(|line| line.len() <= 80), "{text}");
    assert_eq!((rows.len(), rows[1].split_whitespace().next()), (37, Some("1024")));
    assert!(rows[0].starts_with("    0  M."), "{text}");
    let bit_file = 18_517 / 16;
    assert!(rows[bit_file / 64][7..].chars().nth(bit_file % 64) == Some('B'), "{text}");
    assert!(rows[36].ends_with(&"D".repeat(10)), "{text}");
    assert!(
        below.contains(&"a character is 16 pages: . where all are free, else whoever holds most of them,"),
        "{text}"
    );
    has(&text, &["PACK: 37,035 pages, 19,025 free, 18,010 reserved, 17,027 unreserved\n"]);
}

/// The file of a map as a picture.
fn picture(image: &Path, folder: &Folder) -> String {
    let svg = folder.path("map.svg");
    done(image, &format!("map IMAGE --svg {}", svg.display()));
    std::fs::read_to_string(svg).unwrap()
}

#[test]
fn the_288_mb_pack() {
    let (folder, image, said) = pack(PACK_288);
    assert_eq!(said, "volume PACK of 140733 pages, bit file on pages 70366 to 70374\n");
    assert_eq!(done(&image, "check IMAGE"), "sound: 10 of 140733 pages are held\n");
    assert_eq!(
        done(&image, "list IMAGE"),
        "VOLUME PACK PAGES 140733 RESERVED 10 UNRESERVED 140723\n"
    );
    assert_eq!(done(&image, "who IMAGE 70374"), "ninth of the bit file's 9 pages\n");
    assert_eq!(run(&image, "who IMAGE 140733").status, 2);
    has(
        &done(&image, "page IMAGE 70374 603"),
        &[
            "  it is     bits of pages 140720 to 140732, word 603 of the ninth of the bit file's 9 pages\n",
            "  bit 12    0  page 140732, free\n",
        ],
    );
    assert_eq!(rows(&done(&image, "map IMAGE")).0.len(), 35);
    let picture = picture(&image, &folder);
    assert_eq!(picture.matches("class=\"pages\"").count(), 140_733_usize.div_ceil(16));
    assert!(picture.len() < 2_000_000, "{} bytes", picture.len());
    let new = folder.path("new.img");
    let said = run(&new, "format IMAGE PACK --pages 140733 --bit-page 140725");
    has(
        &said.err,
        &[
            "refused (2)",
            ": the 9 pages of the bit file would be 140725 to 140733, and pages 1 to 140732 are there for it\n",
        ],
    );
    assert_eq!(folder.names(), ["map.svg", "pack.img"]);
}
