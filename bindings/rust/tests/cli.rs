//! The program: help, exit statuses, errors, files. What it prints of the kept chunks: tests/cli_kept.rs.
mod common;

use common::run::{fresh, program, run, run_on, unread};
use common::{chunk, function, sample};
use std::fs::{self, Permissions};
use std::os::unix::fs::{symlink, PermissionsExt};
use std::process::{Command, Stdio};

const COMMANDS: [&str; 6] = ["list", "dump", "copy", "check", "lines", "sweep"];

fn recentre() -> String {
    sample().to_str().unwrap().to_string()
}

fn small() -> Vec<u8> {
    chunk(&function(0, 0, &[], &[], &[]))
}

#[test]
fn help() {
    let all = run(&["--help"]);
    let all = all.text(0);
    assert_eq!(run(&["-h"]).text(0), all);
    assert_eq!(run(&["help"]).text(0), all);
    assert_eq!(run(&["help", "--help"]).text(0), all);
    for command in COMMANDS {
        assert!(all.contains(&format!("\n  {command} ")), "{command}");
        assert!(all.lines().all(|line| line.len() <= 110), "{all}");
        let one = run(&[command, "--help"]);
        let one = one.text(0);
        assert!(one.starts_with(&format!("Usage: lafzimdo {command} ")), "{one}");
        assert!(one.contains("Exit status:") && one.contains("\n  --max-input-bytes N, "), "{one}");
        assert_eq!(run(&["help", command]).text(0), one);
        assert_eq!(run(&[command, "-h", "x", "y"]).text(0), one);
        assert!(one.lines().all(|line| line.len() <= 110), "{one}");
    }
    assert_eq!(run(&["--version"]).text(0), concat!("lafzimdo ", env!("CARGO_PKG_VERSION"), "\n"));
}

#[test]
fn wrong_arguments() {
    for (arguments, part) in [
        (&[][..], "a command is missing"),
        (&["frobnicate"], "there is no command \"frobnicate\""),
        (&["help", "frobnicate"], "there is no command"),
        (&["list"], "list takes FILE..."),
        (&["copy", "a"], "copy takes FILE OUT"),
        (&["copy", "a", "b", "c"], "copy takes FILE OUT"),
        (&["copy", "a", "b", "--files-from", "c"], "--files-from needs --into"),
        (&["copy", "a", "b", "--parents"], "--parents needs --into"),
        (&["copy", "--into", "a"], "copy takes FILE OUT, or with --into FILE..."),
        (&["copy", "--into"], "--into needs DIR"),
        (&["copy", "--force=1", "a", "b"], "--force takes no value"),
        (&["dump", "--function", "x", "a"], "--function is a number"),
        (&["dump", "--raw", "--luac", "a"], "only one may be given"),
        (&["dump", "--raw", "--json", "a"], "only one may be given"),
        (&["lines", "a"], "lines takes FILE FUNCTION [PC...]"),
        (&["lines", "a", "x"], "FUNCTION is a number"),
        (&["lines", "a", "0", "-1"], "there is no option -1"),
        (&["lines", "a", "0", "18446744073709551616"], "PC is a number"),
        (&["sweep", "a", "0"], "sweep takes FILE FUNCTION LOG"),
        (&["sweep", "a", "0", "b", "c"], "sweep takes FILE FUNCTION LOG"),
        (&["sweep", "a", "x", "b"], "FUNCTION is a number"),
        (&["sweep", "-", "0", "-"], "FILE and LOG cannot both be standard input"),
        (&["list", "--force", "a"], "there is no option --force"),
        (&["list", "-\u{1b}[2J\u{202e}"], r"there is no option -\u{1b}[2J\u{202e}"),
        (&["list", "--max-nesting-depth"], "--max-nesting-depth needs a number"),
        (&["list", "--max-nesting-depth", "+1", "a"], "--max-nesting-depth is a number"),
        (&["list", "--max-nesting-depth=", "a"], "--max-nesting-depth is a number"),
    ] {
        let ran = run(arguments);
        ran.says(2, part);
        assert!(ran.stderr.ends_with("Try 'lafzimdo --help'.\n"), "{}", ran.stderr);
    }
}

#[test]
fn a_file_that_cannot_be_read() {
    for command in ["list", "dump", "check"] {
        run(&[command, "no/such/file"]).says(3, "no/such/file: ");
        run(&[command, env!("CARGO_TARGET_TMPDIR")]).says(3, env!("CARGO_TARGET_TMPDIR"));
    }
}

#[test]
fn refusals() {
    let bytes = small();
    run_on(&["list", "-"], &bytes[..45]).says(1, "standard input: refused 1 at 45: the file is cut short");
    run_on(&["dump", "-"], b"").says(1, "refused 1 at 0");
    run_on(&["check", "-", "--max-nesting-depth", "15"], &bytes).says(1, "refused 21");
    run_on(&["check", "--max-input-bytes", "45", "-"], &bytes).says(1, "refused 22");
    run_on(&["lines", "-", "1"], &bytes).says(1, "refused 23");
    run_on(&["lines", "-", "1", "0"], &bytes).says(1, "refused 23");
    let far = chunk(&function(1 << 62, 1, &[], &[1], &[]));
    run_on(&["lines", "-", "0"], &far).says(1, "refused 25");
    run_on(&["lines", "-", "0", "0"], &far).says(1, "refused 25");
    assert!(run_on(&["dump", "--raw", "-"], &far).text(0).contains("\n    0 [-] 00000000 MOVE "));
    assert!(run_on(&["dump", "-"], &far).text(0).contains("\n    0 [-] MOVE       R0 R0\n"));
    run_on(&["dump", "--function", "1", "-"], &far).says(1, "refused 23");
    let path = fresh("refused.luac");
    fs::write(&path, &bytes[..45]).unwrap();
    let name = path.to_str().unwrap();
    run(&["list", name]).says(1, &format!("{name}: refused 1 at 45"));
}

#[test]
fn the_longest_file_and_one_longer() {
    let mut bytes = small();
    bytes.resize(16_777_216, 0);
    let listed = run_on(&["list", "-"], &bytes);
    assert_eq!(
        listed.text(0),
        "chunk 16777216 functions 1 trailing 16777170 verdict valid-for-analysis\n0 0 0 0 0 0 2 0 0 0\n"
    );
    bytes.push(0);
    run_on(&["list", "-"], &bytes).says(1, "refused 22");
    // A stream without an end is refused too.
    let endless = program().args(["list", "/dev/zero"]).output().unwrap();
    assert_eq!(endless.status.code(), Some(1));
}

#[test]
#[cfg(repository)]
fn listed_as_chunklist_lists() {
    assert_eq!(run(&["list", &recentre()]).text(0), common::text("crates/chunklist/stdout"));
    let listed = run_on(&["list", "-"], &small());
    assert_eq!(listed.text(0), "chunk 46 functions 1 trailing 0 verdict valid-for-analysis\n0 0 0 0 0 0 2 0 0 0\n");
}

#[test]
fn copies() {
    let bytes = fs::read(recentre()).unwrap();
    let path = fresh("copy.luac");
    let out = path.to_str().unwrap();
    assert_eq!(run(&["copy", &recentre(), out]).text(0), "");
    assert_eq!(fs::read(&path).unwrap(), bytes);

    // That copy is there already.
    assert_eq!(run(&["copy", &recentre(), out]).text(0), "");

    // What is there stays, unless told otherwise, and also where the chunk is refused.
    let mut other = bytes.clone();
    *other.last_mut().unwrap() ^= 1;
    for other in [&other, &bytes[1..], b""] {
        fs::write(&path, other).unwrap();
        let why = "copy.luac: it exists already, and is no such copy; --force overwrites it\n";
        run(&["copy", &recentre(), out]).says(3, why);
        assert_eq!(fs::read(&path).unwrap(), other);
    }
    fs::write(&path, "precious").unwrap();
    run(&["copy", &recentre(), out]).says(3, "--force");
    run_on(&["copy", "--force", "-", out], b"no chunk").says(1, "refused");
    assert_eq!(fs::read(&path).unwrap(), b"precious");
    assert_eq!(run(&["copy", "--force", &recentre(), out]).text(0), "");
    assert_eq!(fs::read(&path).unwrap(), bytes);

    // Onto itself.
    assert_eq!(run(&["copy", "-f", out, out]).text(0), "");
    assert_eq!(fs::read(&path).unwrap(), bytes);

    let none = fresh("none.luac");
    run_on(&["copy", "-", none.to_str().unwrap()], b"no chunk").says(1, "refused");
    assert!(!none.exists());
    run(&["copy", &recentre(), "no/such/folder/file"]).says(3, "no/such/folder/file: ");
    let (from, folder) = (recentre(), env!("CARGO_TARGET_TMPDIR"));
    for onto in [&["copy", &from, folder][..], &["copy", "--force", &from, folder]] {
        run(onto).says(3, "it exists already, and is a folder\n");
    }
    let why = "/dev/null: it exists already, and is no file; --force writes to it\n";
    run(&["copy", &recentre(), "/dev/null"]).says(3, why);
    assert_eq!(run(&["copy", &recentre(), "-"]).stdout, bytes);
}

#[test]
fn a_file_that_is_replaced() {
    let (path, link) = (fresh("replaced.luac"), fresh("link.luac"));
    fs::write(&path, "old").unwrap();
    fs::set_permissions(&path, Permissions::from_mode(0o640)).unwrap();
    symlink(&path, &link).unwrap();
    assert_eq!(run(&["copy", "--force", &recentre(), link.to_str().unwrap()]).text(0), "");
    assert!(fs::symlink_metadata(&link).unwrap().is_symlink());
    assert_eq!(fs::metadata(&path).unwrap().permissions().mode() & 0o777, 0o640);
    assert_eq!(fs::read(&path).unwrap(), fs::read(recentre()).unwrap());
    let folder = fs::read_dir(env!("CARGO_TARGET_TMPDIR")).unwrap();
    assert!(folder.flatten().all(|file| !file.file_name().to_str().unwrap().starts_with("replaced.luac.")));
    // What a link leads to may also be there already; or nothing may be there.
    assert_eq!(run(&["copy", &recentre(), link.to_str().unwrap()]).text(0), "");
    fs::remove_file(&path).unwrap();
    let (from, name) = (recentre(), link.to_str().unwrap());
    for onto in [&["copy", &from, name][..], &["copy", "--force", &from, name]] {
        run(onto).says(3, "link.luac: it is a link to a file that is not there\n");
    }
    assert!(fs::symlink_metadata(&link).unwrap().is_symlink() && !path.exists());
    assert_eq!(run(&["copy", "--force", &recentre(), "/dev/null"]).text(0), "");
    assert!(!fs::metadata("/dev/null").unwrap().is_file());
    run(&["copy", "--force", &recentre(), "/dev/full"]).says(3, "/dev/full: ");
}

/// As a full disk: no file may grow beyond one block.
#[test]
fn a_copy_that_cannot_be_finished() {
    let (there, none) = (fresh("there.luac"), fresh("not_there.luac"));
    fs::write(&there, "precious").unwrap();
    for path in [&there, &none] {
        let mut shell = Command::new("sh");
        shell.args([
            "-c",
            "trap '' XFSZ; ulimit -f 1; exec \"$@\"",
            "sh",
            env!("CARGO_BIN_EXE_lafzimdo"),
            "copy",
            "--force",
        ]);
        let output = shell.arg(recentre()).arg(path).output().unwrap();
        assert_eq!(output.status.code(), Some(3), "{}", String::from_utf8_lossy(&output.stderr));
    }
    assert_eq!(fs::read(&there).unwrap(), b"precious");
    assert!(!none.exists());
    let folder = fs::read_dir(env!("CARGO_TARGET_TMPDIR")).unwrap();
    assert!(folder.flatten().all(|file| !file.file_name().to_str().unwrap().starts_with("there.luac.")));
}

#[test]
fn names_that_look_like_options() {
    let folder = env!("CARGO_TARGET_TMPDIR");
    fs::copy(recentre(), format!("{folder}/-q")).unwrap();
    let output = program().current_dir(folder).args(["list", "--", "-q"]).output().unwrap();
    assert_eq!((output.status.code(), output.stdout), (Some(0), run(&["list", &recentre()]).stdout));
}

/// One instruction, the word.
fn one_word(word: u32) -> Vec<u8> {
    let mut bytes = chunk(&function(0, 1, &[], &[], &[]));
    bytes[39..43].copy_from_slice(&word.to_le_bytes());
    bytes
}

#[test]
fn checks() {
    let jump = one_word(0x7fff_ffb8);
    let ran = run_on(&["check", "-"], &jump);
    assert_eq!(
        ran.text(4),
        "verdict invalid\nfindings 1\nwarnings 0\n\
        error in function 0 at pc 0 (?:-, JMP 0): outside the function is the jump's target 1 (JUMP-001)\n"
    );
    assert_eq!(run_on(&["check", "--quiet", "-"], &jump).text(4), "");
    // MOVE to register 2 of 2 is warned of.
    let register = one_word(2 << 7);
    let ran = run_on(&["check", "-"], &register);
    let expected = "verdict valid-for-analysis\nfindings 1\nwarnings 0\n\
        warning in function 0 at pc 0 (?:-, MOVE R2 R0): beyond the stack is register 2 (REG-001)\n";
    assert_eq!(ran.text(0), expected);
    assert_eq!(run_on(&["check", "-q", "-"], &register).text(0), "");
    let ran = run(&["check", &recentre()]);
    assert_eq!(ran.text(0), "verdict valid-for-analysis\nfindings 0\nwarnings 0\n");
}

/// What was unusual in reading; source and line of a finding; a word without an opcode.
#[test]
fn checks_in_full() {
    let mut bytes = fs::read(recentre()).unwrap();
    bytes[5] = 1;
    // Of main the instructions 51, JMP 16 in line 64, and 4.
    let at = bytes.windows(4).position(|word| word == 0x8000_07b8u32.to_le_bytes()).unwrap();
    bytes[at..at + 4].copy_from_slice(&0xffff_ffb8u32.to_le_bytes());
    bytes[at - 47 * 4..at - 46 * 4].copy_from_slice(&0x7fu32.to_le_bytes());
    bytes.push(9);
    let expected = "verdict invalid\nfindings 2\nwarnings 2\n\
        warning at 5: the format byte is not 0: Lua's own loader refuses the chunk (L54-HEADER-003)\n\
        warning at 2372: bytes follow the main function: Lua's own loader does not look at them (L54-CHUNK-001)\n\
        error in function 0 at pc 4 (recentre.lua:5, no opcode 127): there is no opcode 127 (OPCODE-001)\n\
        error in function 0 at pc 51 (recentre.lua:64, JMP 16777216): outside the function is the jump's target 16777268 (JUMP-001)\n";
    assert_eq!(run_on(&["check", "-"], &bytes).text(4), expected);
}

#[test]
fn a_check_that_stops() {
    let mut bytes = chunk(&function(0, 10_001, &[], &[], &[]));
    // Behind header, source, lines, three bytes and a count of two bytes.
    for word in bytes[40..].chunks_exact_mut(4).take(10_001) {
        word.copy_from_slice(&(2u32 << 7).to_le_bytes());
    }
    let ran = run_on(&["check", "-"], &bytes);
    let text = ran.text(5);
    assert!(
        text.starts_with("verdict incomplete\nfindings 10000\nwarnings 0\nwarning in function 0 at pc 0 (?:-, MOVE "),
        "{text:.200}"
    );
    assert_eq!(text.lines().count(), 10_003);
    assert_eq!(run_on(&["check", "-q", "-"], &bytes).text(5), "");
}

#[test]
fn lines() {
    let main = function(10, 5, &[], &[1, 0, 2, -128, 1], &[(3, 200)]);
    let bytes = chunk(&main);
    assert_eq!(run_on(&["lines", "-", "0"], &bytes).text(0), "0 11\n1 11\n2 13\n3 200\n4 201\n");
    let last = "18446744073709551615";
    assert_eq!(run_on(&["lines", "-", "0", "9", "2", last], &bytes).text(0), format!("9 201\n2 13\n{last} 201\n"));
}

#[test]
fn sweeps() {
    let chunk_file = fresh("swept.luac");
    fs::write(&chunk_file, chunk(&function(10, 5, &[], &[1, 0, 2, -128, 1], &[(3, 200)]))).unwrap();
    let name = chunk_file.to_str().unwrap();
    let ran = run_on(&["sweep", name, "0", "-"], b"0\n9\n9\n18446744073709551615\n");
    assert_eq!(ran.text(0), "0 11\n9 201\n9 201\n18446744073709551615 201\ndeltas 3\n");
    assert_eq!(run_on(&["sweep", name, "0", "-"], b"").text(0), "deltas 0\n");
    run_on(&["sweep", name, "0", "-"], b"2\n1\n").says(1, "refused 30");
    run_on(&["sweep", name, "1", "-"], b"2\n1\n").says(1, "refused 23");
    run_on(&["sweep", name, "0", "-"], b"2\nx\n").says(3, "standard input: line 2 is no number");
    run_on(&["sweep", name, "0", "-"], b"2\n\xff\n").says(3, "standard input: ");
    run(&["sweep", name, "0", "no/such/log"]).says(3, "no/such/log: ");
    // From a file, the chunk from standard input; anchors at one pc.
    let log = fresh("swept.log");
    fs::write(&log, "1\r\n\r\n2").unwrap();
    let log = log.to_str().unwrap();
    let bytes = fs::read(&chunk_file).unwrap();
    assert_eq!(run_on(&["sweep", "-", "0", log], &bytes).text(0), "1 11\n2 13\ndeltas 3\n");
    let twice = chunk(&function(7, 9, &[], &[1, 1], &[(1, 5), (1, 6)]));
    run_on(&["sweep", "-", "0", log], &twice).says(1, "refused 29");
    assert_eq!(run_on(&["lines", "-", "0", "1", "2"], &twice).text(0), "1 7\n2 7\n");
}

#[test]
fn a_reader_that_wants_no_more() {
    let mut bytes = small();
    bytes.resize(4_000_000, 0);
    let path = fresh("long.luac");
    fs::write(&path, &bytes).unwrap();
    let output = program().arg("dump").arg(&path).stdout(unread()).stderr(Stdio::piped()).output().unwrap();
    assert_eq!((output.status.code(), String::from_utf8(output.stderr).unwrap()), (Some(0), String::new()));
    // The same where the reader goes once the program runs.
    let mut child = program().arg("dump").arg(&path).stdout(Stdio::piped()).stderr(Stdio::piped()).spawn().unwrap();
    drop(child.stdout.take());
    let output = child.wait_with_output().unwrap();
    assert_eq!((output.status.code(), String::from_utf8(output.stderr).unwrap()), (Some(0), String::new()));
    // A copy that is not taken is not delivered.
    let output = program().arg("copy").arg(&path).arg("-").stdout(unread()).stderr(Stdio::piped()).output().unwrap();
    assert_eq!(output.status.code(), Some(3));
    assert!(String::from_utf8(output.stderr).unwrap().starts_with("lafzimdo: standard output: Broken pipe"));
}

#[test]
fn an_output_that_cannot_be_written() {
    for command in COMMANDS {
        let full = fs::OpenOptions::new().write(true).open("/dev/full").unwrap();
        let mut arguments = vec![command.to_string(), recentre()];
        match command {
            "copy" => arguments.push("-".into()),
            "lines" => arguments.push("0".into()),
            "sweep" => arguments.extend(["0".to_string(), "/dev/null".to_string()]),
            _ => {}
        }
        let output = program().args(arguments).stdout(full).stderr(Stdio::piped()).output().unwrap();
        let said = String::from_utf8(output.stderr).unwrap();
        assert_eq!(output.status.code(), Some(3), "{command}");
        assert!(said.starts_with("lafzimdo: standard output: "), "{said}");
    }
}
