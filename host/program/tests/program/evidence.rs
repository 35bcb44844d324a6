//! The report that is kept with a clip.

use crate::dumps::{change_at, rib, sample, table_at, NOON, SAMPLE};
use crate::json::Json;
use crate::run::{command, finish, run, run_fed, Folder, Run};
use std::fs;
use std::io::Write;
use std::path::Path;
use std::process::{Command, Stdio};

fn report(folder: &Folder) -> Json {
    let text = String::from_utf8(folder.read("report")).unwrap();
    also_read_elsewhere(&folder.word("report"));
    assert!(text.ends_with("}\n"));
    Json::read(&text)
}

/// By another reader too, where there is one.
fn also_read_elsewhere(file: &str) {
    let script = "import json, sys; json.load(open(sys.argv[1]))";
    if let Ok(status) = Command::new("python3").args(["-c", script, file]).status() {
        assert!(status.success(), "python3 cannot read it");
    }
}

/// Of octets, by the system's program; none if there is none.
fn sha256(octets: &[u8]) -> Json {
    let mut command = Command::new("sha256sum");
    command.stdin(Stdio::piped()).stdout(Stdio::piped());
    let Ok(mut child) = command.spawn() else {
        return Json::Null;
    };
    child.stdin.take().unwrap().write_all(octets).unwrap();
    let out = child.wait_with_output().unwrap().stdout;
    Json::Text(String::from_utf8(out[..64].to_vec()).unwrap())
}

fn cut(folder: &Folder, files: &[&str], more: &[&str]) -> Run {
    let (out, report) = (folder.word("clip"), folder.word("report"));
    let order = ["-o", &out, "--report", &report, "-f"];
    run(&[&["cut"], files, &order, more].concat())
}

#[test]
fn all_of_a_cut_is_in_it() {
    let folder = Folder::new("evidence");
    let more =
        ["--from=2026-03-01T13:00:00.011+01:00", "--to=1772366403.0", "--mute=64499", "--mute=7"];
    let told = cut(&folder, &[SAMPLE], &more).ended(0);
    let report = report(&folder);
    let version = env!("CARGO_PKG_VERSION");
    assert_eq!(report.at("program.name").text(), "dagsumilat");
    assert_eq!(report.at("program.version").text(), version);
    let given: Vec<&str> = report.at("order.given").list().iter().map(Json::text).collect();
    assert_eq!(given[..2], ["cut", SAMPLE]);
    assert_eq!(given[given.len() - 4..], more);
    let noon = u64::from(NOON) * 1_000_000;
    assert_eq!(report.at("order.from.microseconds").number(), noon + 11_000);
    assert_eq!(report.at("order.from.time").text(), "2026-03-01T12:00:00.011000Z");
    assert_eq!(report.at("order.up_to_not_including.microseconds").number(), noon + 3_000_000);
    assert_eq!(report.at("order.muted").list(), [Json::Number(7), Json::Number(64_499)]);
    assert_eq!(report.at("order.muted_addresses").list(), []);
    assert_eq!(report.at("order.only"), &Json::Null);

    let (dump, clip) = (sample(), folder.read("clip"));
    for (at, octets) in
        [("files.0", &dump), ("files.0.unpacked", &dump), ("dump", &dump), ("clip", &clip)]
    {
        let it = report.at(at);
        assert_eq!(it.at("size").number(), octets.len() as u64, "{at}");
        assert_eq!(*it.at("sha256"), sha256(octets), "{at}");
    }
    assert_eq!(report.at("files.0.name").text(), SAMPLE);
    assert_eq!(report.at("files.0.packed_by"), &Json::Null);
    assert_eq!(report.at("clip.name").text(), folder.word("clip"));

    assert_rows(&report, &told.err);
    assert_peers(&report, &folder);
    let warnings = report.at("warnings").list();
    assert_eq!(warnings.len(), 1);
    assert!(warnings[0].at("words").text().starts_with("1 of 2 numbers hit nobody: AS7"));
    assert_eq!(warnings[0].at("serious"), &Json::Bool(false));
    assert!(report.at("note").text().contains("inside other peers' paths"));
    assert!(report.at("made.time").text() > "2026");
}

/// The counts of the report that a person reads.
fn assert_rows(report: &Json, told: &str) {
    let rows = report.at("counts.rows").list();
    assert_eq!(rows.len(), 10);
    let numbers = |row: &Json| ["before", "kept", "gone"].map(|name| row.at(name).number());
    assert_eq!(rows[0].at("of").text(), "records");
    assert_eq!(numbers(&rows[0]), [49, 10, 39]);
    for row in &rows[1..] {
        let [before, kept, gone] = numbers(row);
        assert_eq!(before, kept + gone);
        let line = format!("  {:<16}{kept:>14}{gone:>14}\n", row.at("of").text());
        assert!(told.contains(&line), "{line} is not in {told}");
    }
}

/// Those of `peers`, of the clip and of the dump.
fn assert_peers(report: &Json, folder: &Folder) {
    let numbers =
        |peer: &Json| ["as", "peers", "entries", "records"].map(|name| peer.at(name).number());
    let clip = folder.word("clip");
    let listed = run(&["peers", &clip]).ended(0);
    let words = |line: &str| {
        line.split_whitespace().take(4).map(|word| word.parse().unwrap()).collect::<Vec<u64>>()
    };
    let listed: Vec<Vec<u64>> = listed.out_text().lines().skip(1).map(words).collect();
    let left: Vec<Vec<u64>> =
        report.at("peers_left").list().iter().map(|peer| numbers(peer).to_vec()).collect();
    assert!(!left.is_empty());
    assert_eq!(left, listed);
    let muted = report.at("peers_muted").list();
    assert_eq!(muted.iter().map(|peer| peer.at("as").number()).collect::<Vec<_>>(), [64_499]);
}

#[test]
fn times_and_addresses_of_those_who_are_left() {
    let folder = Folder::new("evidence-peers");
    let octets = [
        table_at(1, &[(10, 1), (20, 2)]),
        rib(5, &[0]),
        change_at(7, 10, 3, 99),
        change_at(8, 30, 4, 99),
    ]
    .concat();
    let file = folder.file("dump", &octets);
    cut(&folder, &[&file], &["--mute-address=192.0.2.4"]).ended(0);
    let report = report(&folder);
    let first = report.at("peers_left.0");
    assert_eq!(first.at("first.microseconds").number(), 5_000_000);
    assert_eq!(first.at("last.time").text(), "1970-01-01T00:00:07.000000Z");
    let addresses: Vec<&str> = first.at("addresses").list().iter().map(Json::text).collect();
    assert_eq!(addresses, ["192.0.2.1", "192.0.2.3"]);
    assert_eq!(report.at("peers_left.1.first"), &Json::Null, "only in a table");
    assert_eq!(report.at("peers_left").list().len(), 2);
    assert_eq!(report.at("order.muted_addresses.0.address").text(), "192.0.2.4");
    assert_eq!(report.at("order.muted_addresses.0.as_numbers.0").number(), 30);
    assert_eq!(report.at("order.from"), &Json::Null);
    assert_eq!(report.at("counts.rib_records_without_entries_kept").number(), 0);
    cut(&folder, &[&file], &["--only=20"]).ended(0);
    let report = self::report(&folder);
    assert_eq!(report.at("order.only").list(), [Json::Number(20)]);
    assert_eq!(report.at("order.muted").list(), [Json::Number(10), Json::Number(30)]);
}

#[test]
fn files_that_are_packed() {
    let folder = Folder::new("evidence-packed");
    let packed = Command::new("gzip").args(["-c", SAMPLE]).output();
    let Ok(packed) = packed.map(|output| output.stdout) else {
        return;
    };
    let files = [folder.file("one.mrt.gz", &packed), folder.file("two.mrt", &sample())];
    cut(&folder, &[&files[0], &files[1]], &["--mute=64499"]).ended(0);
    let report = report(&folder);
    assert_eq!(report.at("files.0.packed_by").text(), "gzip");
    assert_eq!(report.at("files.0.size").number(), packed.len() as u64);
    assert_eq!(*report.at("files.0.sha256"), sha256(&packed));
    assert_eq!(*report.at("files.0.unpacked.sha256"), sha256(&sample()));
    assert_eq!(*report.at("files.1.sha256"), sha256(&sample()));
    assert_eq!(*report.at("dump.sha256"), sha256(&sample().repeat(2)));
    assert_eq!(report.at("dump.size").number(), 2 * sample().len() as u64);
}

#[test]
fn a_system_without_sha256sum() {
    let folder = Folder::new("evidence-alone");
    let (out, report) = (folder.word("clip"), folder.word("report"));
    let mut command = command(&["cut", SAMPLE, "--from=0", "-o", &out, "--report", &report]);
    command.env("PATH", folder.path("nowhere"));
    finish(command).ended(0);
    let report = self::report(&folder);
    for at in ["files.0.sha256", "dump.sha256", "clip.sha256"] {
        assert_eq!(report.at(at), &Json::Null);
    }
    assert_eq!(report.at("clip.size").number(), sample().len() as u64);
}

#[test]
fn names_of_any_kind_are_text() {
    let folder = Folder::new("evidence-names");
    let file = folder.file("a \"dump\"\n\u{1b}\\ é", &sample());
    cut(&folder, &[&file], &["--from=0"]).ended(0);
    let report = report(&folder);
    assert_eq!(report.at("order.given.1").text(), file);
    assert!(!report.at("files.0.name").text().contains('\n'), "shown escaped");
}

#[test]
fn it_is_written_with_the_clip_or_not_at_all() {
    let folder = Folder::new("evidence-whole");
    let out = folder.word("clip");
    let order = |report: &str| run(&["cut", SAMPLE, "--from=0", "-o", &out, "--report", report]);
    order(&folder.word("none/report")).ended(2).told("its folder");
    order(SAMPLE).ended(2).told("it is an input");
    order(&out).ended(2).told("it is OUT too");
    run(&["cut", SAMPLE, "--from=0", "-o", "-", "--report", "-"]).ended(2).told("it is OUT too");
    fs::create_dir(folder.path("inner")).unwrap();
    order(&folder.word("inner/../clip")).ended(2).told("it is OUT too");
    fs::remove_dir(folder.path("inner")).unwrap();
    let report = folder.file("report", b"an earlier one");
    order(&report).ended(2).told("--force replaces it");
    assert_eq!(folder.names(), ["report"]);
    assert!(Path::new(SAMPLE).metadata().unwrap().len() > 0);
    fs::remove_file(&report).unwrap();
    order(&report).ended(0);
    assert_eq!(folder.names(), ["clip", "report"]);
    let piped = run_fed(&["cut", "-", "--from=0", "-o", &out, "-fq", "--report", "-"], &sample());
    let printed = Json::read(piped.ended(0).out_text());
    assert_eq!(printed.at("files.0.name").text(), "standard input");
    assert_eq!(folder.read("clip"), sample());
}
