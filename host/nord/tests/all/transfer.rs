//! Whole files in and out: every length comes back, and what cannot be written whole is not written at all.

use crate::common::{disk, done, fails, noise, run, sample, Run, NORD};
use std::io::Write;
use std::process::{Command, Stdio};

#[test]
fn every_length_comes_back() {
    let (folder, image) = disk(4096, 4000);
    let (input, output) = (folder.path("in.bin"), folder.path("out.bin"));
    let past_one_block = 513 * 2048;
    let past_two_blocks = 1025 * 2048 - 5;
    // Up and down through all kinds of files, so that the file also shrinks.
    let lengths = [
        0,
        1,
        2047,
        2048,
        2049,
        past_one_block,
        1,
        past_two_blocks,
        512 * 2048,
        1024 * 2048 + 1,
        0,
        2049,
    ];
    for (seed, length) in lengths.into_iter().enumerate() {
        let mut bytes = noise(seed as u64, length);
        std::fs::write(&input, &bytes).unwrap();
        let words = if seed == 0 { "created" } else { "replaced" };
        let pages = length.div_ceil(2048);
        assert_eq!(
            done(&image, &format!("write IMAGE DOCK/READS:DATA {}", input.display())),
            format!("DOCK/READS:DATA {words}: {}\n", nord::answers::pages(pages as u32))
        );
        done(&image, &format!("read IMAGE DOCK/READS:DATA {}", output.display()));
        bytes.resize(pages * 2048, 0);
        assert!(std::fs::read(&output).unwrap() == bytes, "{length} bytes");
        let shape = ["EMPTY", "INDEXED", "SUBINDEXED"][pages.min(1) + pages.saturating_sub(512).min(1)];
        assert!(done(&image, "list IMAGE").contains(&format!("PAGES {pages} {shape}\n")));
        done(&image, "check IMAGE");
    }
    assert_eq!(folder.names(), ["disk.img", "in.bin", "out.bin"]);
}

#[test]
fn other_files_stay_as_they_are() {
    let (folder, image) = disk(154, 100);
    let write = |name: &str, bytes: &[u8]| {
        let input = folder.put("in.bin", bytes);
        done(&image, &format!("write IMAGE DOCK/{name} {}", input.display()));
    };
    write("A", &noise(1, 5000));
    write("B", &noise(2, 9000));
    write("A", &noise(3, 20000));
    write("C", &noise(4, 100));
    write("A", &noise(5, 2));
    let mut b = noise(2, 9000);
    b.resize(5 * 2048, 0);
    assert!(run(&image, "read IMAGE DOCK/B").out == b);
    assert_eq!(run(&image, "read IMAGE DOCK/C").out[..100], noise(4, 100));
    assert_eq!(run(&image, "read IMAGE DOCK/A").out[..3], [noise(5, 2)[0], noise(5, 2)[1], 0]);
}

#[test]
fn standard_input_and_output() {
    let (_folder, image) = disk(154, 100);
    let mut child = Command::new(NORD)
        .args(["write", image.to_str().unwrap(), "DOCK/READS", "-"])
        .stdin(Stdio::piped())
        .stdout(Stdio::piped())
        .spawn()
        .unwrap();
    child.stdin.take().unwrap().write_all(b"from a pipe").unwrap();
    assert_eq!(Run::of(child.wait_with_output().unwrap()).text(), "DOCK/READS: created: 1 page\n");
    for line in ["read IMAGE DOCK/READS", "read IMAGE DOCK/READS -"] {
        let out = run(&image, line).out;
        assert_eq!((out.len(), &out[..12]), (2048, b"from a pipe\0".as_slice()));
    }
}

#[test]
fn a_write_that_does_not_fit_changes_nothing() {
    let (folder, image) = sample();
    let large = folder.put("large.bin", &noise(1, 95 * 2048));
    // New, larger than before, and by index: each is refused after many pages have grown in memory.
    for name in ["DOCK/NEW:DATA", "DOCK/READS:DATA", "@0/@0"] {
        let said = fails(&image, &format!("write IMAGE {name} {}", large.display()), 9);
        assert!(said.contains("given less used is below the pages needed"), "{said}");
    }
    assert!(fails(&image, &format!("write IMAGE FLOCK/READS {}", large.display()), 4).contains("no such user"));
    assert!(fails(&image, &format!("write IMAGE DOCK/reads {}", large.display()), 2).contains("an argument is wrong"));
    assert!(fails(&image, &format!("write IMAGE DOCK/NEW --contiguous {}", large.display()), 9).contains("pages needed"));
    assert!(fails(&image, &format!("write IMAGE DOCK/NEW {}", folder.path("absent").display()), 74).contains("No such file"));
    assert!(fails(&image, &format!("write IMAGE DOCK/NEW {}", folder.0.display()), 74).contains("directory"));
    assert_eq!(folder.names(), ["disk.img", "large.bin"]);
}

#[test]
fn an_endless_input_ends() {
    let (_folder, image) = disk(16, 5);
    fails(&image, "write IMAGE DOCK/NEW /dev/zero", 9);
}

#[test]
fn contiguous_files_take_what_fits_exactly() {
    let (folder, image) = sample();
    let ten = folder.put("ten.bin", &noise(1, 10 * 2048 - 7));
    let eleven = folder.put("eleven.bin", &noise(2, 10 * 2048 + 1));
    let nine = folder.put("nine.bin", &noise(3, 9 * 2048));
    done(&image, &format!("write IMAGE DOCK/LAMBS:DATA {}", ten.display()));
    assert_eq!(
        run(&image, "read IMAGE DOCK/LAMBS:DATA").out[..10 * 2048 - 7],
        noise(1, 10 * 2048 - 7)
    );
    for (input, pages) in [(&eleven, 11), (&nine, 9)] {
        let said = fails(&image, &format!("write IMAGE DOCK/LAMBS:DATA {}", input.display()), 6);
        let wanted = format!("a contiguous file keeps its page count: DOCK/LAMBS:DATA has 10 pages, and the input has {pages} pages\n");
        assert!(said.ends_with(&wanted), "{said}");
    }
    done(
        &image,
        &format!("write IMAGE DOCK/RAMS:PLAN --contiguous --created 5 {}", nine.display()),
    );
    assert!(done(&image, "list IMAGE").ends_with("FILE 2 RAMS:PLAN PAGES 9 CONTIGUOUS\n"));
    assert_eq!(run(&image, "read IMAGE DOCK/RAMS:PLAN").out, noise(3, 9 * 2048));
    // --contiguous creates: a file of that name must not be there, whatever its kind.
    for name in ["READS:DATA", "RAMS:PLAN"] {
        let line = format!("write IMAGE DOCK/{name} --contiguous {}", nine.display());
        assert!(fails(&image, &line, 5).contains(&format!("the name is taken: DOCK/{name}")));
    }
}

#[test]
fn what_is_read_replaces_a_host_file_whole() {
    let (folder, image) = sample();
    let old = folder.put("out.bin", &[1; 100_000]);
    std::os::unix::fs::symlink(&old, folder.path("link.bin")).unwrap();
    done(&image, &format!("read IMAGE DOCK/READS:DATA {}", folder.path("link.bin").display()));
    assert_eq!(std::fs::read(&old).unwrap().len(), 3 * 2048);
    assert!(std::fs::symlink_metadata(folder.path("link.bin")).unwrap().is_symlink());
    done(&image, "read IMAGE DOCK/READS:DATA /dev/null");
    assert_eq!(folder.names(), ["disk.img", "link.bin", "out.bin"]);
}
