//! Many files in a run of the program: a line a file, one that is refused does not stop the others, the worst exit status.
mod common;

use common::run::{program, run, run_on, unread};
use common::{chunk, function, sample};
use std::fs;
use std::os::unix::ffi::OsStrExt;
use std::path::{Path, PathBuf};
use std::process::Stdio;

/// A fresh folder with: good.luac and again/good.luac, cut.luac, invalid.luac, stopped.luac (10,000 findings, none an error), odd.luac (two warnings).
fn folder(name: &str) -> PathBuf {
    let folder = Path::new(env!("CARGO_TARGET_TMPDIR")).join(name);
    let _ = fs::remove_dir_all(&folder);
    fs::create_dir_all(folder.join("again")).unwrap();
    fs::create_dir(folder.join("out")).unwrap();
    let good = fs::read(sample()).unwrap();
    fs::write(folder.join("good.luac"), &good).unwrap();
    fs::write(folder.join("again/good.luac"), &good[..1000]).unwrap();
    fs::write(folder.join("cut.luac"), &good[..45]).unwrap();
    let mut invalid = chunk(&function(0, 1, &[], &[], &[]));
    invalid[39..43].copy_from_slice(&0x7fff_ffb8u32.to_le_bytes());
    fs::write(folder.join("invalid.luac"), invalid).unwrap();
    let mut stopped = chunk(&function(0, 10_001, &[], &[], &[]));
    for word in stopped[40..].chunks_exact_mut(4).take(10_001) {
        word.copy_from_slice(&(2u32 << 7).to_le_bytes());
    }
    fs::write(folder.join("stopped.luac"), stopped).unwrap();
    let mut odd = good;
    odd[5] = 1;
    odd.push(0);
    fs::write(folder.join("odd.luac"), odd).unwrap();
    folder
}

/// The names in the folder, of these words.
fn named(folder: &Path, words: &str) -> Vec<String> {
    words.split(' ').map(|word| folder.join(word).to_str().unwrap().to_string()).collect()
}

fn arguments<'a>(options: &[&'a str], names: &'a [String]) -> Vec<&'a str> {
    options.iter().copied().chain(names.iter().map(String::as_str)).collect()
}

/// What a command prints of these files, without the folder's name.
fn told(folder: &Path, options: &[&str], words: &str, status: i32) -> String {
    let names = named(folder, words);
    run(&arguments(options, &names)).text(status).replace(&format!("{}/", folder.display()), "")
}

const LINES: &str = "\
good.luac: chunk 2372 functions 7 trailing 0 verdict valid-for-analysis
cut.luac: refused 1 at 33: the file is cut short (CORE-TRUNC-001)
invalid.luac: chunk 50 functions 1 trailing 0 verdict invalid
none.luac: No such file or directory (os error 2)
odd.luac: chunk 2373 functions 7 trailing 1 verdict valid-for-analysis
";

#[test]
fn lists() {
    let folder = folder("lists");
    assert_eq!(told(&folder, &["list"], "good.luac cut.luac invalid.luac none.luac odd.luac", 3), LINES);
    assert_eq!(told(&folder, &["list"], "good.luac odd.luac", 0).lines().count(), 2);
    // The form of many files, of one.
    let first = LINES.split_inclusive('\n').next().unwrap();
    assert_eq!(told(&folder, &["list", "--names"], "good.luac", 0), first);
    assert_eq!(told(&folder, &["list", "-H"], "good.luac", 0), first);
    let piped = run_on(&["list", "-H", "-"], &fs::read(folder.join("good.luac")).unwrap());
    assert_eq!(piped.text(0), first.replace("good.luac", "standard input"));
}

#[test]
fn checks() {
    let folder = folder("checks");
    let all = "good.luac cut.luac invalid.luac stopped.luac odd.luac";
    let lines = "\
good.luac: verdict valid-for-analysis findings 0 warnings 0
cut.luac: refused 1 at 33: the file is cut short (CORE-TRUNC-001)
invalid.luac: verdict invalid findings 1 warnings 0
stopped.luac: verdict incomplete findings 10000 warnings 0
odd.luac: verdict valid-for-analysis findings 0 warnings 2
";
    assert_eq!(told(&folder, &["check"], all, 1), lines);
    let verbose = told(&folder, &["check", "--verbose"], all, 1);
    assert_eq!(verbose.lines().count(), 5 + 1 + 10_000 + 2);
    assert!(verbose.contains("\ninvalid.luac: error in function 0 at pc 0 (?:-, JMP 0): outside "), "{verbose:.300}");
    assert!(verbose.contains("\nodd.luac: warning at 2372: bytes follow the main function"));
    // Quiet: nothing but troubles, on standard error.
    let names = named(&folder, "good.luac invalid.luac cut.luac");
    let quiet = run(&arguments(&["check", "--quiet"], &names));
    assert_eq!((quiet.status, quiet.stdout.len()), (1, 0));
    assert!(quiet.stderr.ends_with("/cut.luac: refused 1 at 33: the file is cut short (CORE-TRUNC-001)\n"));
}

#[test]
fn the_worst_status() {
    let folder = folder("worst");
    for (words, status) in [
        ("good.luac odd.luac", 0),
        ("stopped.luac good.luac", 5),
        ("stopped.luac invalid.luac good.luac", 4),
        ("invalid.luac stopped.luac", 4),
        ("cut.luac invalid.luac stopped.luac", 1),
        ("none.luac cut.luac good.luac", 3),
        ("good.luac invalid.luac cut.luac none.luac", 3),
    ] {
        told(&folder, &["check"], words, status);
    }
}

#[test]
fn names_from_a_list() {
    let folder = folder("from");
    let names = named(&folder, "good.luac cut.luac invalid.luac none.luac odd.luac");
    let list = folder.join("list");
    let of = |bytes: &[u8], list: &str| run_on(&["list", "--files-from", list], bytes);
    let plain = |printed: &str| printed.replace(&format!("{}/", folder.display()), "");
    // A line each, the last without its end; each behind a NUL; from standard input; behind one that is typed.
    fs::write(&list, names.join("\n")).unwrap();
    assert_eq!(plain(of(b"", list.to_str().unwrap()).text(3)), LINES);
    fs::write(&list, names.join("\0") + "\0").unwrap();
    assert_eq!(plain(of(b"", list.to_str().unwrap()).text(3)), LINES);
    assert_eq!(plain(of((names.join("\n") + "\n").as_bytes(), "-").text(3)), LINES);
    fs::write(&list, names[1..].join("\n")).unwrap();
    let both = run(&["list", &names[0], "--files-from", list.to_str().unwrap()]);
    assert_eq!(plain(both.text(3)), LINES);
    // One name, none, and no list.
    let first = LINES.split_inclusive('\n').next().unwrap();
    assert_eq!(plain(of(names[0].as_bytes(), "-").text(0)), first);
    assert_eq!(of(b"", "-").text(0), "");
    of(b"", "no/such/list").says(3, "no/such/list: ");
    // A name with a line feed stands in one line; what is no text is replaced.
    let odd = folder.join(std::ffi::OsStr::from_bytes(b"a\nb\xff"));
    fs::copy(&names[0], &odd).unwrap();
    let printed = of(&[odd.as_os_str().as_bytes(), b"\0"].concat(), "-");
    assert_eq!(plain(printed.text(0)), first.replace("good.luac", "a\\nb\u{fffd}"));
}

/// Names that a terminal would not show as they are: in another order, or not to be told from another.
#[test]
fn names_that_deceive() {
    let folder = folder("deceive");
    let bytes = fs::read(folder.join("good.luac")).unwrap();
    for (name, shown, in_json) in [
        ("a\u{202e}caul.txt", r"a\u{202e}caul.txt", r"a\u202ecaul.txt"),
        ("good\u{200b}.luac", r"good\u{200b}.luac", r"good\u200b.luac"),
        ("a\u{2028}b\u{9b}2J", r"a\u{2028}b\u{9b}2J", r"a\u2028b\u009b2J"),
        ("a\u{e0100}\u{3164}", r"a\u{e0100}\u{3164}", r"a\udb40\udd00\u3164"),
        ("Grüße e\u{301} 日本 \"a\" \\n", "Grüße e\u{301} 日本 \"a\" \\n", "Grüße e\u{301} 日本 \\\"a\\\" \\\\n"),
    ] {
        fs::write(folder.join(name), &bytes).unwrap();
        let names = [folder.join(name).to_str().unwrap().to_string()];
        let plain = |printed: &str| printed.replace(&format!("{}/", folder.display()), "");
        let line = plain(run(&arguments(&["list", "--names"], &names)).text(0));
        assert!(line.starts_with(&format!("{shown}: chunk 2372 ")), "{line}");
        let headed = plain(run(&arguments(&["dump", "--raw"], &[&names[..], &names].concat())).text(0));
        assert!(headed.starts_with(&format!("==> {shown} <==\n")), "{headed:.100}");
        // On standard error too.
        fs::write(folder.join(name), &bytes[..45]).unwrap();
        let refused = run(&arguments(&["list"], &names));
        refused.says(1, &format!("/{shown}: refused 1 at 33"));
        let json = run(&arguments(&["list", "--json"], &names));
        assert!(json.text(1).contains(&format!("/{in_json}\",\"status\":1")), "{}", json.text(1));
    }
}

#[test]
fn copies_into_a_folder() {
    let folder = folder("into");
    let out = folder.join("out");
    let to = out.to_str().unwrap();
    let printed = told(&folder, &["copy", "--into", to], "good.luac cut.luac again/good.luac odd.luac none.luac", 3);
    let expected = "\
good.luac: copy of 2372 bytes
cut.luac: refused 1 at 33: the file is cut short (CORE-TRUNC-001)
again/good.luac: another file of that name was copied before
odd.luac: copy of 2373 bytes
none.luac: No such file or directory (os error 2)
";
    assert_eq!(printed, expected);
    let good = fs::read(folder.join("good.luac")).unwrap();
    assert_eq!(fs::read(out.join("good.luac")).unwrap(), good);
    assert_eq!(fs::read(out.join("odd.luac")).unwrap(), [&good[..], &[0]].concat());
    let mut there: Vec<_> = fs::read_dir(&out).unwrap().map(|file| file.unwrap().file_name()).collect();
    there.sort();
    assert_eq!(there, ["good.luac", "odd.luac"]);

    // Once more: the copies are there already.
    let printed = told(&folder, &["copy", "--into", to], "good.luac odd.luac", 0);
    assert_eq!(printed, "good.luac: copy of 2372 bytes, there already\nodd.luac: copy of 2373 bytes, there already\n");

    // What is there stays, unless told otherwise; the others are copied.
    fs::write(out.join("good.luac"), "precious").unwrap();
    let printed = told(&folder, &["copy", "--into", to], "good.luac invalid.luac", 3);
    assert_eq!(
        printed,
        "good.luac: out/good.luac: it exists already; --force overwrites it\ninvalid.luac: copy of 50 bytes\n"
    );
    assert_eq!(fs::read(out.join("good.luac")).unwrap(), b"precious");
    assert_eq!(told(&folder, &["copy", "--force", "--quiet", "--into", to], "good.luac", 0), "");
    assert_eq!(fs::read(out.join("good.luac")).unwrap(), good);
    // By a list; the copies of copies are the same.
    let copied = fs::read(out.join("odd.luac")).unwrap();
    let list = format!("{to}/good.luac\n{to}/odd.luac\n");
    let printed = run_on(&["copy", "-f", "--into", to, "--files-from", "-"], list.as_bytes());
    assert_eq!(printed.text(0).lines().count(), 2);
    assert_eq!(fs::read(out.join("odd.luac")).unwrap(), copied);
}

/// A name is taken by the first; the very copy of it is there already. With --force too, and also through a link.
#[test]
fn copies_with_one_name() {
    let folder = folder("taken");
    let (out, good) = (folder.join("out"), fs::read(folder.join("good.luac")).unwrap());
    let to = out.to_str().unwrap();
    let other = [&good[..], b"other"].concat();
    fs::write(folder.join("again/good.luac"), &good).unwrap();
    for name in ["other/good.luac", "link.luac"] {
        fs::create_dir_all(folder.join("other")).unwrap();
        fs::write(folder.join(name), &other).unwrap();
    }
    let words = "good.luac good.luac again/good.luac other/good.luac";
    let twice = "good.luac: copy of 2372 bytes, there already\nagain/good.luac: copy of 2372 bytes, there already\n\
        other/good.luac: another file of that name was copied before\n";
    let first = "good.luac: copy of 2372 bytes\n";
    for force in [&["copy", "--into", to][..], &["copy", "--force", "--into", to]] {
        assert_eq!(told(&folder, force, words, 3), format!("{first}{twice}"));
        assert_eq!(fs::read(out.join("good.luac")).unwrap(), good);
    }
    std::os::unix::fs::symlink("good.luac", out.join("link.luac")).unwrap();
    let force = ["copy", "--force", "--into", to];
    let expected = format!("{first}link.luac: out/link.luac: it leads to the copy of another file\n");
    assert_eq!(told(&folder, &force, "good.luac link.luac", 3), expected);
    assert_eq!(fs::read(out.join("good.luac")).unwrap(), good);
    // The other way round, and with the same copy.
    let expected = "link.luac: copy of 2377 bytes\ngood.luac: out/good.luac: it leads to the copy of another file\n";
    assert_eq!(told(&folder, &force, "link.luac good.luac", 3), expected);
    assert_eq!(fs::read(out.join("good.luac")).unwrap(), other);
    fs::write(folder.join("link.luac"), &good).unwrap();
    let expected = format!("{first}link.luac: copy of 2372 bytes, there already\n");
    assert_eq!(told(&folder, &force, "good.luac link.luac", 0), expected);
}

/// Two files with one name, in two folders; `./`, absolute names and `..`.
#[test]
fn copies_with_their_folders() {
    let folder = folder("parents").canonicalize().unwrap();
    let good = fs::read(folder.join("good.luac")).unwrap();
    for around in ["one", "two/deep"] {
        fs::create_dir_all(folder.join(around)).unwrap();
        fs::write(folder.join(around).join("init.luac"), [&good[..], around.as_bytes()].concat()).unwrap();
    }
    let copied = |into: &str, names: &[&str]| {
        let mut command = program();
        command.current_dir(&folder).args(["copy", "--parents", "--into", into]).args(names);
        let output = command.output().unwrap();
        assert_eq!(output.stderr, b"");
        (output.status.code(), String::from_utf8(output.stdout).unwrap())
    };
    let names = ["one/init.luac", "./two//deep/./init.luac", "two/deep/init.luac", "good.luac", "cut.luac"];
    let expected = "\
one/init.luac: copy of 2375 bytes
./two//deep/./init.luac: copy of 2380 bytes
two/deep/init.luac: copy of 2380 bytes, there already
good.luac: copy of 2372 bytes
cut.luac: refused 1 at 33: the file is cut short (CORE-TRUNC-001)
";
    assert_eq!(copied("out", &names), (Some(1), expected.into()));
    assert!(fs::read(folder.join("out/one/init.luac")).unwrap().ends_with(b"one"));
    assert!(fs::read(folder.join("out/two/deep/init.luac")).unwrap().ends_with(b"deep"));
    let again = "one/init.luac: copy of 2375 bytes, there already\n";
    assert_eq!(copied("out", &names[..1]), (Some(0), again.into()));
    // Absolute names lose their root; nothing leads out of the folder, and for what is refused no folder is made.
    let (absolute, cut) = (folder.join("one/init.luac"), folder.join("again/good.luac"));
    assert_eq!(copied("out", &[absolute.to_str().unwrap(), cut.to_str().unwrap()]).0, Some(1));
    assert!(folder.join("out").join(absolute.strip_prefix("/").unwrap()).is_file());
    assert!(!folder.join("out").join(cut.strip_prefix("/").unwrap()).parent().unwrap().exists());
    let printed = copied("out", &["one/../one/init.luac", "..", "."]);
    let expected = "\
one/../one/init.luac: --parents takes no path with .., which could lead out of the folder
..: --parents takes no path with .., which could lead out of the folder
.: it has no name for its copy
";
    assert_eq!(printed, (Some(3), expected.into()));
    // A file where a folder is to be; a link to a folder is gone through.
    fs::create_dir_all(folder.join("other/far")).unwrap();
    fs::write(folder.join("other/one"), "").unwrap();
    std::os::unix::fs::symlink("far", folder.join("other/two")).unwrap();
    let (status, printed) = copied("other", &names[..2]);
    assert_eq!(status, Some(3));
    assert!(printed.starts_with("one/init.luac: other/one/init.luac: other/one is no folder\n"), "{printed}");
    assert!(folder.join("other/far/deep/init.luac").is_file());
}

#[test]
fn folders_that_are_none() {
    let folder = folder("none");
    let names = named(&folder, "good.luac");
    run(&["copy", "--into", "no/such/folder", &names[0]]).says(3, "no/such/folder: ");
    run(&["copy", "--into", &names[0], &names[0]]).says(3, "it is no folder");
    let to = folder.join("out");
    let printed = run_on(&["copy", "--into", to.to_str().unwrap(), "-", "..", "/"], b"");
    let expected = "\
standard input: it has no name for its copy
..: it has no name for its copy
/: it has no name for its copy
";
    assert_eq!(printed.text(3), expected);
}

#[test]
fn dumps() {
    let folder = folder("dumps");
    let printed = told(&folder, &["dump", "--raw"], "invalid.luac cut.luac odd.luac", 1);
    assert!(printed.starts_with("==> invalid.luac <==\nchunk of 50 bytes\n"), "{printed:.100}");
    assert!(
        printed.contains("\n\ncut.luac: refused 1 at 33: the file is cut short (CORE-TRUNC-001)\n==> odd.luac <==\n")
    );
}

#[test]
fn an_output_that_ends_early() {
    let folder = folder("early");
    let names = named(&folder, "good.luac cut.luac good.luac");
    for (command, status, says) in
        [("list", 3, "lafzimdo: standard output: "), ("check", 3, "lafzimdo: standard output: ")]
    {
        let full = fs::OpenOptions::new().write(true).open("/dev/full").unwrap();
        let output = program().arg(command).args(&names).stdout(full).stderr(Stdio::piped()).output().unwrap();
        assert_eq!(output.status.code(), Some(status));
        assert!(String::from_utf8(output.stderr).unwrap().starts_with(says));
    }
    // Copying goes on.
    for (into, status, says) in [("/dev/full", 3, "lafzimdo: standard output: "), ("/dev/null", 1, "")] {
        let out = folder.join("out");
        let into = fs::OpenOptions::new().write(true).open(into).unwrap();
        let mut command = program();
        command.args(["copy", "--force", "--into"]).arg(&out).args(named(&folder, "cut.luac good.luac odd.luac"));
        let output = command.stdout(into).stderr(Stdio::piped()).output().unwrap();
        assert_eq!(output.status.code(), Some(status));
        assert!(String::from_utf8(output.stderr).unwrap().starts_with(says));
        assert_eq!(fs::read_dir(&out).unwrap().count(), 2);
        fs::remove_file(out.join("odd.luac")).unwrap();
    }
    // Where nobody reads on, files that were not looked at are told by the status alone.
    let (one, many) = (&names[..1], &names);
    for (arguments, names, status) in [
        (&["list"][..], many, 3),
        (&["check"], many, 3),
        (&["dump"], many, 3),
        (&["list", "--json"], many, 3),
        // All were looked at.
        (&["check", "--quiet"], &named(&folder, "good.luac good.luac"), 0),
        (&["list"], &one.to_vec(), 0),
        (&["list", "--names"], &one.to_vec(), 0),
        (&["check", "--names"], &named(&folder, "invalid.luac"), 4),
    ] {
        let mut command = program();
        let output = command.args(arguments).args(names).stdout(unread()).stderr(Stdio::piped()).output().unwrap();
        assert_eq!((output.status.code(), output.stderr), (Some(status), vec![]), "{arguments:?}");
    }
    // The same where the reader goes once the program runs.
    let mut child = program().arg("list").args(&names).stdout(Stdio::piped()).stderr(Stdio::piped()).spawn().unwrap();
    drop(child.stdout.take());
    let output = child.wait_with_output().unwrap();
    assert_eq!(String::from_utf8(output.stderr).unwrap(), "");
}
