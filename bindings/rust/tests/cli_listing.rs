//! What `dump` prints: the listing, and luac's form. Against luac itself: tests/luac.py and tests/listing.py of the repository.
mod common;

use common::run::{run, run_on};
use common::{chunk, function, sample};

fn dumped(options: &[&str]) -> String {
    let sample = sample();
    let mut arguments = vec!["dump", sample.to_str().unwrap()];
    arguments.extend(options);
    run(&arguments).text(0).to_string()
}

/// Every peak re-centres the marker.
const PEAK: &str = r#"
  L46:   ; from 68
    46 [64] MOVE       R16 R8         ; R8=is_peak
    47 [64] MOVE       R17 R11        ; R11=trace
    48 [64] MOVE       R18 R15        ; R15=i
    49 [64] CALL       R16 3 2        ; 2 in, 1 out
    50 [64] TEST       R16 k0         ; skips the next if R16
    51 [64] JMP        16             ; to 68
    52 [65] SELF       R16 R10 K17    ; R10=marker, K17="recentre"
    53 [65] MOVE       R18 R9         ; R9=centre
    54 [65] MOVE       R19 R11        ; R11=trace
    55 [65] MOVE       R20 R15        ; R15=i
    56 [65] CALL       R18 3 0        ; 2 in, all out
    57 [65] CALL       R16 0 2        ; R16=moved, all in, 1 out
"#;

#[test]
fn a_listing() {
    let listing = dumped(&[]);
    assert!(
        listing.starts_with("chunk of 2372 bytes, functions 7, padded numbers 0, trailing bytes 0\npcs count from 0 ")
    );
    assert!(listing.contains(PEAK), "{listing}");
    for line in [
        "\nfunction 0, main: lines 0 to 0 of recentre.lua, bytes 32 to 2372\n  parameters 0, vararg, registers 24\n",
        "\nfunction 4, in function 3: lines 36 to 42 of recentre.lua, bytes 1383 to 1614\n",
        "\n    26 [44] CLOSURE    R8 2           ; R8=is_peak, function 3, lines 31 to 44\n",
        "\n    42 [63] ADDI       R13 R13 -1\n",
        "\n    45 [63] FORPREP    R12 22         ; exit to 69\n",
        "\n    K17 \"recentre\"\n",
        "\n    U0 _ENV, set by who loads the chunk\n",
        "\n    U2 excursion, U1 of function 3\n",
        "\n    R15 i, pc 46 up to 68\n",
        "\n    3 is function 5, lines 47 to 51\n",
    ] {
        assert!(listing.contains(line), "{line}");
    }
}

#[test]
fn one_function() {
    let (whole, one) = (dumped(&[]), dumped(&["--function", "4"]));
    let (_, behind) = whole.split_once("\nfunction 4, ").unwrap();
    let (block, _) = behind.split_once("\n\nfunction 5, ").unwrap();
    assert_eq!(one.split_once("\n\nfunction 4, ").unwrap().1, format!("{block}\n"));
    let (whole, one) = (dumped(&["--luac"]), dumped(&["--luac", "--function=4"]));
    assert!(one.starts_with("\nfunction <recentre.lua:36,42> (25 instructions at 0x567)\n"), "{one}");
    assert!(whole.contains(&one));
    let (whole, one) = (dumped(&["--raw"]), dumped(&["--raw", "--function=4"]));
    assert!(one.starts_with("\nfunction 4 depth 2 parent 3 bytes 1383 to 1614\n") && whole.contains(&one));
}

/// Words that name what is not there, a name that is no text, a jump out of the function: all is shown, nothing goes wrong.
#[test]
fn what_is_not_there() {
    let words: [u32; 8] = [
        3 | 7 << 15,                        // LOADK R0 K7
        79 | 9 << 15,                       // CLOSURE R0 9
        9 | 1 << 16,                        // GETUPVAL R0 U1
        0xffff_ffb8,                        // JMP far away
        127,                                // no opcode
        4,                                  // LOADKX R0, and no EXTRAARG behind
        19 | 255 << 16,                     // NEWTABLE with a hash of 2^254
        48 | 1 << 15 | 99 << 16 | 88 << 24, // MMBINK with no such constant, nor event
    ];
    let mut bytes = chunk(&function(0, words.len(), &[], &[], &[]));
    for (at, word) in words.iter().enumerate() {
        bytes[39 + 4 * at..][..4].copy_from_slice(&word.to_le_bytes());
    }
    let printed = run_on(&["dump", "-"], &bytes);
    for line in [
        "0 [-] LOADK      R0 K7          ; no K7\n",
        "1 [-] CLOSURE    R0 9           ; no such function\n",
        "2 [-] GETUPVAL   R0 U1\n",
        "3 [-] JMP        16777216       ; to 16777220\n",
        "4 [-] no opcode 127\n",
        "6 [-] NEWTABLE   R0 255 0 k0    ; array 0, hash 2^254\n",
        "7 [-] MMBINK     R0 K99 88 k1   ; no K99, __?, operands exchanged\n",
        "5 [-] LOADKX     R0             ; no EXTRAARG behind it\n",
    ] {
        assert!(printed.text(0).contains(line), "{line}{}", printed.text(0));
    }
    assert!(run_on(&["dump", "--luac", "-"], &bytes).text(0).contains("\t2\t[-]\tCLOSURE  \t0 9\t; ?\n"));
}

/// A long text is cut behind `;`, with its length; in the lists, where it is shown once, it is whole.
#[test]
fn long_texts() {
    let long = "k".repeat(300);
    let mut main = function(0, 2, &[], &[], &[]);
    // LOADK R0 K0, GETUPVAL R0 U0; a constant and an upvalue; a local variable in register 0, and the upvalue's name.
    main[7..15].copy_from_slice(&[3, 0, 0, 0, 9, 0, 0, 0]);
    let string = [&[0x02, 0xad][..], long.as_bytes()].concat();
    let constant = [&[0x81, 0x14][..], &string].concat();
    let tail = [&[0x80, 0x80, 0x80, 0x81][..], &string, &[0x80, 0x82, 0x81], &string].concat();
    let bytes = chunk(&[&main[..15], &constant, &[0x81, 1, 0, 0], &tail].concat());
    let cut = |most: usize| format!("{}\".. (300 bytes)", &long[..most]);
    let listing = run_on(&["dump", "-"], &bytes);
    for line in [
        format!("0 [-] LOADK      R0 K0          ; R0=\"{}, K0=\"{}\n", cut(60), cut(60)),
        format!("1 [-] GETUPVAL   R0 U0          ; R0=\"{}, U0=\"{}\n", cut(60), cut(60)),
        format!("    K0 \"{long}\"\n"),
    ] {
        assert!(listing.text(0).contains(&line), "{line}{}", listing.text(0));
    }
    let luac = run_on(&["dump", "--luac", "-"], &bytes);
    for line in [
        format!("\t1\t[-]\tLOADK    \t0 0\t; \"{}\n", cut(200)),
        format!("\t2\t[-]\tGETUPVAL \t0 0\t; {}.. (300 bytes)\n", &long[..200]),
        format!("\t0\tS\t\"{long}\"\n"),
        format!("\t0\t{long}\t1\t3\n"),
        format!("\t0\t{long}\t1\t0\n"),
    ] {
        assert!(luac.text(0).contains(&line), "{line}{}", luac.text(0));
    }
}

/// Control characters of a file do not reach the terminal.
#[test]
fn names_that_are_no_text() {
    let mut bytes = chunk(&function(0, 1, &[], &[], &[]));
    bytes.truncate(bytes.len() - 2);
    // One local variable, ESC [ 2 J, in register 0 at pc 0; no upvalue name.
    bytes.extend(b"\x81\x85\x1b[2J\x80\x81\x80");
    for form in [&["dump", "-"][..], &["dump", "--luac", "-"], &["dump", "--raw", "-"]] {
        let printed = run_on(form, &bytes);
        assert!(printed.text(0).bytes().all(|byte| byte == b'\n' || byte == b'\t' || (b' '..=b'~').contains(&byte)));
    }
    assert!(run_on(&["dump", "-"], &bytes).text(0).contains(r#"; R0="\x1b[2J""#));
}

/// Every kept chunk that is read, damaged ones among them: each form lists as many instructions as there are.
#[test]
#[cfg(repository)]
fn every_16th_kept_chunk() {
    use lafzimdo::Chunk;
    let mut listed = 0;
    for (limits, bytes, _) in common::kept_chunks().into_iter().step_by(16) {
        let Ok(chunk) = Chunk::read(&bytes, limits) else { continue };
        let instructions: usize = chunk.functions().map(|function| function.fields().counts.instructions).sum();
        let of = |form: &str| common::run::run_under(form, &limits, &bytes).text(0).to_string();
        let count = |text: String, begins: &str| {
            text.lines()
                .filter(|line| line.starts_with(begins) && line.contains('['))
                .filter(|line| bracketed(line))
                .count()
        };
        assert_eq!(count(of("dump"), "    "), instructions);
        assert_eq!(count(of("dump --luac"), "\t"), instructions);
        listed += 1;
    }
    assert!(listed >= 100, "only {listed} chunks");
}

/// Whether the second word of a line is in brackets, a line or `-`.
fn bracketed(line: &str) -> bool {
    let behind = line.trim_start().trim_start_matches(|c: char| c.is_ascii_digit()).trim_start();
    let line = behind.strip_prefix('[').and_then(|behind| behind.split_once(']'));
    line.is_some_and(|(line, _)| line.trim() == "-" || line.trim().parse::<u64>().is_ok())
}
