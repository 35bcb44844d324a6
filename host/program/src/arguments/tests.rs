use super::*;
use crate::input::LIMIT;
use dagsumilat::Window;

fn parsed(line: &str) -> Result<Request, Misuse> {
    parse(line.split(' ').filter(|word| !word.is_empty()).map(OsString::from))
}

fn cut_of(line: &str) -> CutOrder {
    match parsed(line) {
        Ok(Request::Cut(order)) => *order,
        other => panic!("{line}: {other:?}"),
    }
}

fn assert_misuse(line: &str, words: &str) {
    let (error, _) = parsed(line).expect_err(line);
    assert!(error.contains(words), "{line}: {error}");
}

fn reading(names: &[&str]) -> Reading {
    let sources = names.iter().map(|name| Source::of_word(name.as_ref())).collect();
    Reading { sources, progress: true, limit: LIMIT, digests: false }
}

#[test]
fn reading_commands() {
    assert_eq!(parsed("check -"), Ok(Request::Check(reading(&["-"]))));
    assert_eq!(parsed("peers a - b"), Ok(Request::Peers(reading(&["a", "-", "b"]))));
    let dashed = Reading { progress: false, limit: 5_000_000, ..reading(&["-x"]) };
    assert_eq!(parsed("check --no-progress --limit 5M -- -x"), Ok(Request::Check(dashed)));
}

#[test]
fn help_and_version() {
    for (line, text) in [
        ("-h", help::PROGRAM),
        ("help", help::PROGRAM),
        ("help --help", help::PROGRAM),
        ("help help", help::PROGRAM),
        ("help cut", help::CUT),
        ("peers a --help", help::PEERS),
        ("cut --mute-file f -h", help::CUT),
        ("--version", help::VERSION),
        ("version", help::VERSION),
    ] {
        assert_eq!(parsed(line), Ok(Request::Text(text)), "{line}");
    }
    assert_misuse("help ctu", "no such command: ctu (did you mean cut?)");
    assert_misuse("help cut a", "takes no more words");
    assert_misuse("version 2", "takes no more words");
}

#[test]
fn a_list() {
    let all = ListOrder {
        reading: reading(&["a"]),
        long: false,
        peers: Vec::new(),
        period: Period::default(),
        doubts: Vec::new(),
    };
    assert_eq!(parsed("list a"), Ok(Request::List(all)));
    let part = ListOrder {
        reading: reading(&["a"]),
        long: true,
        peers: vec![7, 65_546],
        period: Period { from: None, to: Some(5_000_000) },
        doubts: Vec::new(),
    };
    assert_eq!(parsed("list --long a --peer 7 --peer=1.10 --to 5.0"), Ok(Request::List(part)));
}

#[test]
fn a_report() {
    let readings = ["a", "-", "a"].map(|name| reading(&[name])).to_vec();
    assert_eq!(parsed("report a - a"), Ok(Request::Report(ReportOrder { readings, table: false })));
    let readings = vec![Reading { progress: false, ..reading(&["-x"]) }];
    assert_eq!(
        parsed("report --table --no-progress -- -x"),
        Ok(Request::Report(ReportOrder { readings, table: true }))
    );
    assert_eq!(parsed("report --help"), Ok(Request::Text(help::REPORT)));
}

#[test]
fn a_cut() {
    let order = cut_of("cut a.mrt --from=5.5 --to 9.0 --mute AS1.1 --mute=7 -oclip -fq");
    assert_eq!(order.period.window(), Window { from: 5_500_000, to: 9_000_000 });
    let numbers = Listed { items: vec![65_537, 7], files: Vec::new() };
    assert_eq!(order.whose, Whose::Muted { numbers, addresses: Listed::default() });
    assert_eq!(order.target, Some(Target::File { path: "clip".into(), force: true }));
    assert!(order.is_quiet && order.is_forced && order.reading.progress);
    assert!(!order.is_dry && !order.is_strict && !order.is_brief && !order.is_verbose);
    assert!(order.doubts.is_empty() && order.report.is_none() && !order.reading.digests);
    assert_eq!(order.given[..3], ["a.mrt", "--from=5.5", "--to"]);

    let order = cut_of("cut - b --only 7 --only-file f -o - --report r --no-progress --strict");
    assert_eq!(order.reading.sources, [Source::Standard, Source::File("b".into())]);
    let only = Listed { items: vec![7], files: vec![Source::File("f".into())] };
    assert_eq!(order.whose, Whose::AllBut(only));
    assert_eq!((order.period, order.target), (Period::default(), Some(Target::Standard)));
    assert_eq!(order.report, Some(Target::File { path: "r".into(), force: false }));
    assert!(order.is_strict && order.reading.digests && !order.reading.progress);

    let order = cut_of("cut a --dry-run --around 10.0 --seconds 2.5 --mute-address ::1 --brief");
    assert_eq!(order.period.window(), Window { from: 7_500_000, to: 12_500_000 });
    assert!(order.is_dry && order.is_brief && order.target.is_none());
}

#[test]
fn doubts_are_kept() {
    let order = cut_of("cut a --from 1772366400011 -o b");
    assert_eq!(order.doubts.len(), 1);
    assert!(order.doubts[0].starts_with("--from 1772366400011 is taken"), "{:?}", order.doubts);
}

#[test]
fn what_is_missing_or_said_twice() {
    assert_misuse("", "which command");
    assert_misuse("slice a", "no such command: slice");
    assert_misuse("list", "which FILE");
    assert_misuse("list - -", "standard input (-) more than once");
    assert_misuse("list a --no-progress=1", "--no-progress takes no value");
    assert_misuse("list a --limit 1M --limit 1M", "more than one --limit");
    assert_misuse("report", "which FILE");
    assert_misuse("report --table", "which FILE");
    assert_misuse("report a --table=1", "--table takes no value");
    assert_misuse("report - a -", "standard input (-) more than once");
    assert_misuse("cut --from 1.0 --to 2.0 -o b", "which FILE");
    assert_misuse("cut a --from 1.0 --to 2.0", "-o OUT is missing");
    assert_misuse("cut a --from 1.0 --to 2.0 --output=", "-o OUT is missing");
    assert_misuse("cut a --from 1.0 --from 1.0 -o b", "more than one --from");
    assert_misuse("cut a -o b -o c", "more than one OUT");
    assert_misuse("cut a -o b --quiet=1", "--quiet takes no value");
    assert_misuse("cut a -o", "-o needs a value");
    assert_misuse("cut a --from x -o b", "--from: 'x' is no time");
    assert_misuse("cut a -o b --mute 1,2", "--mute: '1,2' is no AS number");
    assert_misuse("cut a -o b --mute-address 1.2.3", "--mute-address: '1.2.3' is no IP address");
    assert_misuse("cut - --mute-file - -o b", "standard input (-) more than once");
}

#[test]
fn what_does_not_go_together() {
    for more in ["--mute 2", "--mute-file f", "--mute-address ::1", "--mute-address-file f"] {
        assert_misuse(&format!("cut a -o b --only 1 {more}"), "--only");
        assert_misuse(&format!("cut a -o b --only-file g {more}"), "--only");
    }
    assert_misuse("cut a -o b --around 1.0", "needs --seconds");
    assert_misuse("cut a -o b --seconds 1", "needs --around");
    assert_misuse("cut a -o b --around 1.0 --seconds 1 --to 2.0", "--around has no");
    assert_misuse("cut a -o b --around 1.0 --seconds 0", "--seconds: '0'");
    assert_misuse("cut a -o b --around 1.0 --seconds x", "--seconds: 'x'");
}

#[test]
fn mistyped_words_have_a_hint() {
    assert_misuse("chekc a", "no such command: chekc (did you mean check?)");
    assert_misuse("cuts a", "(did you mean cut?)");
    assert_misuse("--hepl", "no such option: --hepl (did you mean --help?)");
    assert_misuse("report a --tabel", "no such option: --tabel (did you mean --table?)");
    assert_misuse("cut a -o b --mutes 7", "(did you mean --mute?)");
    assert_misuse("list a --mute", "no such option: --mute");
    assert_misuse("\u{1b}[2J a", "no such command: \\u{1b}[2J");
}
