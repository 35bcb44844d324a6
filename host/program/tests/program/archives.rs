//! Dumps packed by gzip, bzip2, xz and zstd.

use crate::dumps::{change, record, sample, SAMPLE};
use crate::memory::{assert_short, run_short};
use crate::run::{command, finish, is_emulated, run, run_fed, Folder, Run};
use std::fs::{self, File, Permissions};
use std::io::Write;
use std::os::unix::fs::PermissionsExt;
use std::process::{Command, Stdio};

const PROGRAMS: [(&str, &str); 5] =
    [("gzip", "gz"), ("bzip2", "bz2"), ("xz", "xz"), ("zstd", "zst"), ("zstd", "ZSTD")];

fn pack(folder: &Folder, program: &str, octets: &[u8]) -> Vec<u8> {
    let packed = File::create(folder.path("packed")).unwrap();
    let mut child = Command::new(program)
        .arg("-c")
        .stdin(Stdio::piped())
        .stdout(packed)
        .spawn()
        .unwrap_or_else(|error| panic!("{program}: {error}"));
    child.stdin.take().unwrap().write_all(octets).unwrap();
    assert!(child.wait().unwrap().success());
    folder.read("packed")
}

/// More than fits in a pipe, before and after packing: half of it cannot be packed.
fn large() -> Vec<u8> {
    let mut state = 1_u32;
    let noise: Vec<u8> = std::iter::repeat_with(|| {
        state = state.wrapping_mul(1_664_525).wrapping_add(1_013_904_223);
        (state >> 24) as u8
    })
    .take(300_000)
    .collect();
    [sample().repeat(100), record(1, 48, 0, &noise)].concat()
}

#[test]
fn packed_dumps_are_read_as_plain_ones() {
    let folder = Folder::new("packed");
    for octets in [sample(), large(), Vec::new()] {
        let plain = run_fed(&["list", "-"], &octets).ended(0).out;
        for (program, extension) in PROGRAMS {
            let packed = pack(&folder, program, &octets);
            let named = folder.file(&format!("dump.{extension}"), &packed);
            let unnamed = folder.file("dump.mrt", &packed);
            assert!(run(&["list", &named]).ended(0).out == plain, "{program}, by its name");
            assert!(run(&["list", &unnamed]).ended(0).out == plain, "{program}, by its octets");
            assert!(run_fed(&["list", "-"], &packed).ended(0).out == plain, "{program}, piped");
        }
    }
}

#[test]
fn packed_and_plain_dumps_in_one_report() {
    let folder = Folder::new("report-packed");
    let files = PROGRAMS.map(|(program, extension)| {
        folder.file(&format!("dump.{extension}"), &pack(&folder, program, &sample()))
    });
    let plain = folder.file("dump.mrt", &sample());
    let run = run(&["report", &files[0], &plain, &files[3]]).ended(0);
    assert!(run.out_text().starts_with("records=147\nchanges=33\nbreaks=0\nchange.1.2=6\n"));
}

#[test]
fn parts_of_an_archive_are_joined() {
    let folder = Folder::new("joined");
    for (program, extension) in PROGRAMS {
        let packed = pack(&folder, program, &sample()).repeat(2);
        let file = folder.file(&format!("dump.{extension}"), &packed);
        assert!(run(&["check", &file]).ended(0).out_text().contains("98 records"));
    }
}

#[test]
fn a_dump_that_starts_like_an_archive_is_read() {
    for start in [0x1f8b_0800, u32::from_be_bytes(*b"BZh9"), 0x28b5_2ffd] {
        let run = run_fed(&["list", "-"], &record(start, 11, 0, &[])).ended(0);
        assert!(run.out_text().ends_with("\nfault=0 place=12\n"));
    }
}

/// Cuts it and sees that nothing comes of it.
fn assert_nothing_written(folder: &Folder, name: &str) -> Run {
    let (file, out) = (folder.word(name), folder.word("out"));
    let before = folder.names();
    let run = run(&["cut", &file, "--from", "0", "--to", "9999-01-01T00:00:00Z", "-o", &out]);
    assert!(run.out.is_empty());
    assert_eq!(folder.names(), before);
    run.ended(2).told("cannot read").told(name)
}

/// The words about a damaged archive: once, and with no word about what only this program sees.
fn assert_damaged(run: Run, program: &str, octets: &[u8]) {
    let run = run.told(&format!(": it is a damaged {program} archive: "));
    let run = run.silent_about("stdin").silent_about("exit status");
    let after = run.err.split("archive: ").nth(1).unwrap();
    assert!(!after.contains(&format!("{program}:")), "{}", run.err);
    assert_eq!(run.err.trim_end().lines().count(), 1, "{} of {}", run.err, octets.len());
}

#[test]
fn damaged_archives_are_input_errors() {
    let folder = Folder::new("damaged");
    for (program, extension) in PROGRAMS {
        let packed = pack(&folder, program, &sample());
        let half = packed[..packed.len() / 2].to_vec();
        let mut changed = packed.clone();
        changed[packed.len() / 2] ^= 0x10;
        let trailing = [&packed[..], b"and more"].concat();
        let half_behind = [&packed[..], &packed[..20]].concat();
        let no_dump = sample()[1..].to_vec();
        for octets in [half, changed, trailing, half_behind, Vec::new(), no_dump] {
            let name = format!("dump.{extension}");
            folder.file(&name, &octets);
            assert_damaged(assert_nothing_written(&folder, &name), program, &octets);
        }
    }
    folder.file("dump.gz", &pack(&folder, "gzip", &sample())[..100]);
    let words = "dump.gz: it is a damaged gzip archive: unexpected end of file\n";
    run(&["check", &folder.word("dump.gz")]).ended(2).told(words);
}

#[test]
fn a_name_that_does_not_fit_the_octets() {
    let folder = Folder::new("misnamed");
    for (_, extension) in PROGRAMS {
        let name = format!("dump.{extension}");
        folder.file(&name, &sample());
        let words = format!("it is called .{} and is a good dump", extension.to_lowercase());
        assert_nothing_written(&folder, &name).told(&words).silent_about("damaged");
    }
    for ((program, _), (_, extension)) in PROGRAMS.iter().zip(&PROGRAMS[1..4]) {
        let name = format!("dump.{extension}");
        folder.file(&name, &pack(&folder, program, &sample()));
        let words = format!("it is called .{extension} and starts like {program}\n");
        assert_nothing_written(&folder, &name).told(&words).silent_about("damaged");
    }
}

/// Packed files among several that are one recording.
#[test]
fn packed_and_plain_parts_of_one_recording() {
    let folder = Folder::new("packed-parts");
    let mut parts: Vec<Vec<u8>> = (0..4).map(|at| change(at, 10)).collect();
    let mut files: Vec<String> = Vec::new();
    for (part, (program, extension)) in parts.iter().zip(PROGRAMS) {
        files.push(folder.file(&format!("part.{extension}"), &pack(&folder, program, part)));
    }
    parts.insert(2, large());
    files.insert(2, folder.file("plain", &large()));
    // Starts like zstd and is none.
    parts.push(record(0x28b5_2ffd, 11, 0, &[]));
    files.push(folder.file("of-1991", &parts[5]));
    let whole = parts.concat();
    let expected = run_fed(&["list", "-"], &whole).ended(0).out;
    let words: Vec<&str> = ["list"].into_iter().chain(files.iter().map(String::as_str)).collect();
    assert!(run(&words).ended(0).out == expected);
}

#[test]
fn a_missing_program_is_named() {
    let folder = Folder::new("missing");
    for (program, extension) in PROGRAMS {
        let file = folder.file(&format!("dump.{extension}"), &pack(&folder, program, &sample()));
        let mut command = command(&["check", &file]);
        command.env("PATH", folder.path("nowhere"));
        finish(command).ended(2).told(&format!("install {program}"));
    }
}

#[test]
fn no_more_is_unpacked_than_the_limit() {
    let folder = Folder::new("limit-packed");
    for (program, extension) in PROGRAMS {
        let file = folder.file(&format!("dump.{extension}"), &pack(&folder, program, &sample()));
        let words = "more than 3,328 octets, unpacked; --limit SIZE";
        run(&["check", &file, "--limit=3329"]).ended(0);
        run(&["check", &file, "--limit=3328"]).ended(2).told(words);
        run(&["check", SAMPLE, &file, "--limit=6658"]).ended(0);
        run(&["check", SAMPLE, &file, "--limit=6657"]).ended(2).told("more than 6,657 octets");
    }
}

/// Some hundred kilobytes that unpack to a gigabyte, for which there would be no memory: an emulator
/// would be short of it first.
#[test]
fn an_archive_of_too_much_is_ended_at_the_limit() {
    if is_emulated() {
        return;
    }
    let folder = Folder::new("bomb");
    for (program, extension) in [("gzip", "gz"), ("zstd", "zst")] {
        let file = folder.word(&format!("bomb.{extension}"));
        let script = format!("head -c 1000000000 /dev/zero | {program} -1 >'{file}'");
        assert!(Command::new("sh").args(["-c", &script]).status().unwrap().success());
        let limited = ["check", &file, "--limit", "10M"];
        run_short(500_000, &limited, &[]).ended(2).told("more than 10,000,000 octets");
        run_short(500_000, &["check", &file], &[]).ended(2).told("not enough memory");
    }
}

/// An emulator would be short of it first.
#[test]
fn too_little_memory_for_what_is_unpacked() {
    if is_emulated() {
        return;
    }
    let folder = Folder::new("short-packed");
    let octets = record(1, 48, 0, &[0; 1_000_000]).repeat(64);
    let file = folder.file("dump.gz", &pack(&folder, "gzip", &octets));
    assert_short(&["check", &file], &[], 64_000);
    run_short(1_000_000, &["check", &file], &[]).ended(0);
}

/// Where the program that unpacks has too little, the archive is not said to be damaged.
#[test]
fn too_little_memory_for_the_program_that_unpacks() {
    if is_emulated() {
        return;
    }
    let folder = Folder::new("short-program");
    for (program, extension) in PROGRAMS {
        let file = folder.file(&format!("dump.{extension}"), &pack(&folder, program, &large()));
        let script = "ulimit -v 3000; exec \"$0\" \"$@\"";
        let inner = folder.file(
            program,
            format!("#!/bin/sh\nexec sh -c '{script}' /usr/bin/{program} \"$@\"\n").as_bytes(),
        );
        fs::set_permissions(&inner, Permissions::from_mode(0o755)).unwrap();
        let mut command = command(&["check", &file]);
        command.env("PATH", format!("{}:/usr/bin:/bin", folder.word("")));
        finish(command).ended(2).told("cannot read").silent_about("damaged");
    }
}
