//! Wrong calls, and files that cannot be read.

use std::fs;
use std::io::Read;
use std::process::Stdio;

use crate::support::*;

#[test]
fn wrong_calls_are_told() {
    let folder = Folder::new();
    folder.file("in", jane());
    folder.run(&[]).wrong("no command");
    folder.run(&["exprot"]).wrong("no such command: exprot");
    folder.run(&["export"]).wrong("export takes a data set");
    folder.run(&["export", "in"]).wrong("export takes a data set");
    folder.run(&["export", "in", "out"]).wrong("--root");
    folder.run(&["export", "in", "out", "--root"]).wrong("--root needs a value");
    folder.run(&["export", "in", "out", "--root", "1", "--root", "2"]).wrong("given twice");
    folder
        .run(&["export", "in", "out", "--root", "1", "--kepp", "uids"])
        .wrong("no such option here: --kepp");
    folder.run(&["export", "in", "out", "--root", "1", "--keep", "names"]).wrong("no such option: \"names\"");
    folder.run(&["export", "in", "out", "--root", "1", "--shift-days", "x"]).wrong("not a whole number");
    for command in [&["export", "in", "out", "--root", "1"][..], &["explain"]] {
        folder.run(&[command, &["--keep", "modified-dates"]].concat()).wrong("needs --shift-days");
    }
    folder.run(&["export", "in", "in2", "out", "--root", "1"]).wrong("several data sets go to a folder");
    folder.run(&["view", "in"]).wrong("view takes");
    folder.run(&["view", "in", "name"]).wrong("not a tag: name");
    folder.run(&["dump"]).wrong("dump takes");
    folder.run(&["explain", "in"]).wrong("settings alone");
    assert_eq!(folder.names(), ["in"]);
}

#[test]
fn every_report_says_how_it_ended() {
    let folder = Folder::new();
    folder.file("in", jane());
    folder.file("damaged", "damaged");
    let out = |words: &[&str]| folder.run(&[words, &["--json"]].concat()).out;
    let export = ["export", "in", "out", "--root", "1"];
    for well in [&export[..], &["view", "in", "0010,0010"], &["dump", "in"], &["explain"]] {
        assert!(out(well).contains("\"refusal\":null,\"error\":null"), "{well:?}");
    }
    let both_dates = ["--keep", "full-dates,modified-dates"];
    for (refused, number) in [
        ([&export[..], &both_dates].concat(), 1),
        ([&["explain"][..], &both_dates].concat(), 1),
        (vec!["view", "damaged", "0010,0010"], 6),
        (vec!["dump", "damaged"], 6),
    ] {
        let refusal = format!("\"refusal\":{{\"number\":{number},\"offset\":0,\"condition\":\"");
        let out = out(&refused);
        assert!(out.contains(&refusal) && out.contains("\"},\"error\":null"), "{refused:?}: {out}");
    }
    for (wrong, input) in [
        (&export[..3], "null"),
        (&["export", "none", "out", "--root", "1"], "\"none\""),
        (&["view", "in", "name"], "null"),
        (&["view", "none", "0010,0010"], "\"none\""),
        (&["dump"], "null"),
        (&["dump", "none"], "\"none\""),
        (&["explain", "in"], "null"),
    ] {
        let error = format!("\"refusal\":null,\"error\":{{\"input\":{input},\"what\":\"");
        let out = out(wrong);
        assert!(out.contains(&error), "{wrong:?}: {out}");
    }
}

#[test]
fn files_that_are_not_what_they_must_be_are_told() {
    let folder = Folder::new();
    folder.file("in", jane());
    folder.run(&["dump", "none"]).wrong("cannot read none");
    folder.run(&["view", "none", "0010,0010"]).wrong("cannot read none");
    folder.run(&["dump", "."]).wrong("cannot read .");
    let export = |more: &[&str]| folder.run(&[&["export", "in", "out", "--root", "1"], more].concat());
    export(&["--study", "none"]).wrong("cannot read none");
    folder.file("list", "0010,0010\n");
    export(&["--study", "list"]).wrong("list line 1");
    folder.file("list", [0xFF, 0xFE]);
    export(&["--study", "list"]).wrong("a list is text");
    folder.file("ledger", "1.2.3");
    export(&["--ledger", "ledger"]).wrong("not a ledger");
    // Any other file of a length that a ledger may have stays as it is.
    let other = [slot("1.2.3"), vec![b'x'; 64]].concat();
    folder.file("ledger", &other);
    export(&["--ledger", "ledger"]).wrong("not a ledger: entry 2 does not begin with a UID");
    folder.file("ledger", [slot("1.2.3"), slot("1.2.3")].concat());
    export(&["--ledger", "ledger"]).wrong("not a ledger: entry 2 has a UID");
    assert!(!folder.path("out").exists());
}

#[test]
fn nothing_that_is_read_is_written_over() {
    let folder = Folder::new();
    folder.file("in", jane());
    folder.file("list", "0010,0010 A\n");
    let export = |words: &[&str]| folder.run(&[&["export", "--root", "1"], words].concat());
    export(&["in", "in"]).wrong("in is read");
    export(&["in", "./in"]).wrong("is read");
    export(&["in", "list", "--study", "list"]).wrong("is read");
    export(&["in", "out", "--ledger", "in"]).wrong("is read");
    export(&["in", "out", "--ledger", "out"]).wrong("both output and ledger");
    export(&["in", "."]).wrong("is read");
    fs::create_dir(folder.path("a")).unwrap();
    fs::create_dir(folder.path("b")).unwrap();
    folder.file("a/x", jane());
    folder.file("b/x", jane());
    fs::create_dir(folder.path("out")).unwrap();
    export(&["a/x", "b/x", "out"]).wrong("two data sets would be written to out/x");
    assert_eq!(folder.read("in"), jane());
}

#[test]
fn help_and_version() {
    let folder = Folder::new();
    for words in [&["help"][..], &["--help"], &["help", "export"], &["export", "--help"], &["explain", "-h"]]
    {
        assert!(folder.run(words).succeeds().out.contains("corravisk"), "{words:?}");
    }
    assert_eq!(
        folder.run(&["--version"]).succeeds().out,
        format!("corravisk {}\n", env!("CARGO_PKG_VERSION"))
    );
    folder.run(&["help", "nothing"]).wrong("no such command");
    for option in ["  --root ", "  --keep ", "  --study ", "  --ledger ", "  --json "] {
        let out = folder.run(&["help", "export"]).out;
        assert!(out.lines().any(|line| line.starts_with(option)), "{option}: {out}");
    }
}

#[test]
fn a_reader_that_goes_away_is_no_error() {
    let mut child = command().arg("explain").stdout(Stdio::piped()).stderr(Stdio::piped()).spawn().unwrap();
    let mut few = [0; 10];
    child.stdout.take().unwrap().read_exact(&mut few).unwrap();
    let output = child.wait_with_output().unwrap();
    assert_eq!((output.status.code(), output.stderr), (Some(0), vec![]));
}

/// An export whose standard output, or both outputs, go to a reader that is gone already.
fn unheard(folder: &Folder, words: &[&str], both: bool) -> Option<i32> {
    let (reader, writer) = std::io::pipe().unwrap();
    drop(reader);
    let mut command = command();
    command.current_dir(folder.path("")).args(words).stdout(writer.try_clone().unwrap());
    command.stderr(if both { Stdio::from(writer) } else { Stdio::piped() });
    let output = command.spawn().unwrap().wait_with_output().unwrap();
    let refused = String::from_utf8_lossy(&output.stderr).contains("refused, No. ");
    assert_eq!(refused, !both && output.status.code() == Some(1), "{output:?}");
    output.status.code()
}

#[test]
fn an_export_is_done_whether_it_is_heard_or_not() {
    for both in [false, true] {
        for json in [&[][..], &["--json"]] {
            let folder = Folder::new();
            folder.file("a", study("1.2.3"));
            folder.file("b", "damaged");
            folder.file("c", study("1.2.4"));
            fs::create_dir(folder.path("out")).unwrap();
            let export = ["export", "--root", "1.9", "--ledger", "ledger"];
            let done = unheard(&folder, &[&export[..], &["a", "out"], json].concat(), both);
            assert_eq!((done, folder.path("out/a").exists()), (Some(0), true));
            let done = unheard(&folder, &[&export[..], &["a", "b", "c", "out"], json].concat(), both);
            assert_eq!((done, folder.path("out/c").exists()), (Some(1), true));
            assert_eq!(folder.read("ledger").len(), 128);
            let done = unheard(&folder, &[&export[..], &["none", "out"], json].concat(), both);
            assert_eq!(done, Some(2));
        }
    }
}

#[cfg(target_os = "linux")]
#[test]
fn a_full_disk_behind_the_output_is_told_and_decides_nothing() {
    let folder = Folder::new();
    folder.file("in", jane());
    let full = fs::OpenOptions::new().write(true).open("/dev/full").unwrap();
    let mut command = command();
    command.current_dir(folder.path("")).args(["export", "in", "out", "--root", "1.9"]).stdout(full);
    let ran = Ran::of(command.stderr(Stdio::piped()).spawn().unwrap().wait_with_output().unwrap());
    assert_eq!(ran.status, 0);
    assert!(ran.err.contains("cannot print"), "{ran:?}");
    assert_eq!(folder.read("out").len(), 148);
}

#[cfg(unix)]
#[test]
fn a_ledger_behind_a_link_stays_one_ledger() {
    use std::os::unix::fs::symlink;
    let folder = Folder::new();
    folder.file("one", study("1.2.3"));
    folder.file("two", study("1.2.4"));
    fs::create_dir(folder.path("far")).unwrap();
    folder.file("far/ledger", "");
    symlink("far/ledger", folder.path("link")).unwrap();
    folder.run(&["export", "one", "out1", "--root", "1.9", "--ledger", "link"]).succeeds();
    folder.run(&["export", "two", "out2", "--root", "1.9", "--ledger", "far/ledger"]).succeeds();
    assert!(fs::symlink_metadata(folder.path("link")).unwrap().is_symlink());
    assert_eq!(folder.read("far/ledger"), [slot("1.2.3"), slot("1.2.4")].concat());
    // A link to nothing is no ledger that could be begun.
    symlink("far/none", folder.path("nowhere")).unwrap();
    folder.run(&["export", "one", "out3", "--root", "1.9", "--ledger", "nowhere"]).wrong("it is a link");
    assert_eq!(folder.names(), ["far", "link", "nowhere", "one", "out1", "out2", "two"]);
}

#[cfg(unix)]
#[test]
fn what_is_no_regular_file_is_not_written_over() {
    use std::os::unix::fs::symlink;
    use std::os::unix::net::UnixListener;
    let folder = Folder::new();
    folder.file("in", study("1.2.3"));
    folder.file("file", "as it was");
    symlink("file", folder.path("link")).unwrap();
    let _socket = UnixListener::bind(folder.path("socket")).unwrap();
    assert!(std::process::Command::new("mkfifo").arg(folder.path("fifo")).status().unwrap().success());
    let export = |words: &[&str]| folder.run(&[&["export", "in", "--root", "1"], words].concat());
    export(&["link"]).wrong("cannot write link: it is a link");
    for special in ["fifo", "socket"] {
        export(&[special]).wrong("it is no regular file");
        export(&["out", "--ledger", special]).wrong("it is no regular file");
    }
    export(&["out", "--ledger", "."]).wrong("it is a folder");
    assert_eq!(folder.read("file"), b"as it was");
    assert_eq!(folder.names(), ["fifo", "file", "in", "link", "socket"]);
    assert!(!fs::metadata(folder.path("fifo")).unwrap().is_file());
}
