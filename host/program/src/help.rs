//! What --help and --version print.

pub const VERSION: &str = concat!("dagsumilat ", env!("CARGO_PKG_VERSION"), "\n");

pub const PROGRAM: &str = "\
Usage: dagsumilat COMMAND FILE... [OPTION]...

Checks, lists, counts and cuts MRT dumps (RFC 6396) of route collectors.

Commands:
  list FILE...    a line for each record, then the first fault
  check FILE...   says whether the dump is good, or what is wrong and where
  peers FILE...   the peer AS numbers in the dump, with counts
  report FILE...  records, state changes and breaks over many dumps
  cut FILE... [--from TIME] [--to TIME] [--mute AS]... -o OUT
                  keeps a window of time, without the peers of muted AS numbers
  help [COMMAND]  says more, as COMMAND --help does
  version         says which version this is, as --version does

Several FILEs are one recording, laid end to end in the order given; report
counts each by itself. A FILE may be packed by gzip, bzip2, xz or zstd; - is
standard input.
Exit status: 0 done, 1 the dump or the order was refused, 2 wrong usage, or
something could not be read or written.

Examples:
  Is the dump good?
    dagsumilat check updates.20260301.1200.bz2
  From noon, for five minutes, without AS 64500 and AS 65546:
    dagsumilat cut updates.20260301.1200.bz2 --from 2026-03-01T12:00:00Z \\
      --to 2026-03-01T12:05:00Z --mute 64500 --mute AS65546 -o clip.mrt
";

pub const LIST: &str = "\
Usage: dagsumilat list FILE... [--long] [--peer AS]... [--from TIME] [--to TIME]
                       [--around TIME --seconds N]

Prints a line for each record before the first fault,
  at=OFFSET time=MICROSECONDS type=T subtype=S length=L
then fault=N place=OFFSET, where the field that failed starts; fault=0 and the
dump's length if the dump is good. The words for a fault go to standard error.
Several FILEs are one recording, laid end to end in the order given.

  --long         columns for a person: offset, date and time, kind, peer AS and
                 address, then prefix, message or state change; the last line
                 says that the dump is good or tells the fault, in words
  --peer AS      only records of this peer AS, RIB records with an entry of it
                 and peer tables that have it; may be repeated
  --from TIME    only records from this time on
  --to TIME      only records before this time
  --around TIME --seconds N
                 only records from N seconds before TIME up to N seconds after
  --limit SIZE   read no more than this; 8GB if it is not given
  --no-progress  no bar for a large file

AS and TIME are written as for cut. Peer tables are shown by their time too.

Example:
  What came from AS 64500 about noon?
    dagsumilat list --long updates.20260301.1200.bz2 --peer 64500 \\
      --around 2026-03-01T12:00:00Z --seconds 30
";

pub const CHECK: &str = "\
Usage: dagsumilat check FILE...

Of a good dump says how many records and octets it has, its first and last time,
its records by kind, and how many peer AS numbers and peers there are.

Otherwise tells the first fault: its number, its place, which is the first octet
of the field that failed, and what it means; that field's name; where its record
starts, its Type, Subtype and Length, its time and its peer AS as far as they
can be read; the octets around; how much of the dump is good; what such a fault
often comes from and what to do. Where no dump starts with a FILE's first octet,
it says what the FILE looks like, as a page of a server or packets.

Several FILEs are one recording, laid end to end in the order given; the one
that has the fault is named.

  --limit SIZE   read no more than this; 8GB if it is not given
  --no-progress  no bar for a large file
";

pub const PEERS: &str = "\
Usage: dagsumilat peers FILE...

Shows each AS that is a peer in a peer table or the peer AS of a record of type
12, 16 or 17, by number, with how many peers (over all tables), RIB entries and
records it has; the first and the last time of those records and of the RIB
records with those entries; and its addresses. If the dump has a fault, what
stands before it is shown, and the fault is told.
Several FILEs are one recording, laid end to end in the order given.

  --limit SIZE   read no more than this; 8GB if it is not given
  --no-progress  no bar for a large file
";

pub const REPORT: &str = "\
Usage: dagsumilat report [--table] FILE...

Counts each FILE by itself and prints the sums:
  records=COUNT
  changes=COUNT     state changes: types 16 and 17, subtypes 0 and 5
  breaks=COUNT      type 12 records whose sequence is not the previous one's
                    plus one (0 follows 65535); the first of a dump has no
                    previous
  change.O.N=COUNT  state changes from state O to state N, where there are any

States are 1 Idle, 2 Connect, 3 Active, 4 OpenSent, 5 OpenConfirm and 6
Established. A dump with a fault adds nothing: the fault is told, the others are
counted, and the exit status is 1. So it is with a FILE that cannot be read; the
exit status is then 2.

  --table        a table instead, old states in rows and new ones in columns,
                 with sums
  --limit SIZE   read no more than this of a FILE; 8GB if it is not given
  --no-progress  no bar for a large file

Example:
  A day's recordings in one table:
    dagsumilat report --table updates.20260301.*.bz2
";

pub const CUT: &str = "\
Usage: dagsumilat cut FILE... [WHEN] [WHO] -o OUT [OPTION]...

Writes to OUT what is left of FILE: the records of a window of time, without the
peers that are muted. Peer tables are kept at any time, without muted peers.
Several FILEs are one recording, laid end to end in their order.

When (all times, if nothing is said):
  --from TIME      the window's start, which is in it; left out: from the first on
  --to TIME        the window's end, which is not in it; left out: up to the last
  --around TIME --seconds N
                   from N seconds before TIME up to N seconds after it
Who (everybody, if nothing is said):
  --mute AS        leave out the peers with this AS; may be repeated
  --mute-file F    AS numbers from a file
  --mute-address IP
                   leave out the AS behind a peer's address; refused where it has
                   other peers too, unless --force
  --mute-address-file F
                   addresses from a file
  --only AS        leave out every peer AS of the dump but this; may be repeated,
                   not together with --mute
  --only-file F    AS numbers of those who agreed, from a file
What comes of it:
  -o, --output OUT the clip; - is standard output. It appears whole or not at all
  --report FILE    the report as JSON, to be kept with the clip
  --dry-run        report, and write nothing
  --strict         write nothing if there is any warning (exit status 1)
  -f, --force      replace OUT and the report if they exist
  --brief          at most 20 lines of each list in the report
  --verbose        all numbers that a warning is about
  -q, --quiet      no report; warnings are still told
  --limit SIZE     read no more than this, unpacked; 8G if not given
  --no-progress    no bar for a large file

TIME is one of
  2026-03-01T12:00:00.011Z   a date and time with up to 6 digits of fraction; Z is
                             UTC, an offset is written as +01:00
  1772366400011000           a whole number: microseconds since 1970; refused below
                             100000000000, where seconds may be meant
  1772366400.011             a number with a point: seconds since 1970
AS is 64500, AS64500, or 1.10 for AS65546. F has one a line; # starts a comment; -
is standard input.

The report names the peer AS numbers still in the clip. Look at it before the clip
is sent. A mute is by peer: muted AS numbers may stand inside other peers' paths.

Examples:
  One minute from the withdrawal on:
    dagsumilat cut day.mrt.gz --from 2026-03-01T12:00:00.011Z \\
      --to 2026-03-01T12:01:00.011Z -o clip.mrt
  All times, only those who agreed, with a report to keep:
    dagsumilat cut table.mrt --only-file agreed.txt --strict -o public.mrt \\
      --report public.json
";

/// The words of a text that are options.
pub fn options(text: &str) -> impl Iterator<Item = &str> {
    let ends = |c: char| c.is_whitespace() || ",.;:|()[]`".contains(c);
    text.split(ends).filter(|word| word.starts_with('-') && word.len() > 1)
}

#[cfg(test)]
mod tests {
    use super::*;

    const MANUAL: &str = include_str!("../dagsumilat.1");

    #[test]
    fn the_manual_has_every_option_of_the_help() {
        let manual = MANUAL.replace("\\-", "-");
        for text in [PROGRAM, LIST, CHECK, PEERS, REPORT, CUT] {
            assert!(options(text).count() > 0);
            for option in options(text) {
                assert!(manual.contains(option), "{option} is not in the manual");
            }
        }
    }

    #[test]
    fn lines_fit_on_a_terminal() {
        for text in [LIST, CHECK, PEERS, REPORT] {
            let long = text.lines().find(|line| line.len() > 80);
            assert_eq!(long, None);
        }
    }

    #[test]
    fn the_manual_is_of_this_version() {
        assert!(MANUAL.contains(&format!("\"{}\"", VERSION.trim_end())));
    }
}
