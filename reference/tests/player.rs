//! Holds the player to the form of a bench script: its output, fed in again, gives the same bytes.

use std::io::{BufRead, BufReader, Read};

use reference::generate::{self, Random};
use reference::player::{play, play_bytes, Bench, Ringbox, Telegrams, UnitBench};
use reference::scripts;

fn ringbox(script: &[u8]) -> Vec<u8> {
    play_bytes(&mut Ringbox::new(), script)
}

fn telegrams(script: &[u8]) -> Vec<u8> {
    play_bytes(&mut Telegrams::new(), script)
}

fn unit(script: &[u8]) -> Vec<u8> {
    play_bytes(&mut UnitBench::new(), script)
}

fn assert_stable(player: fn(&[u8]) -> Vec<u8>, script: &[u8]) {
    let output = player(script);
    assert!(player(&output) == output, "{:?}", String::from_utf8_lossy(&script[..script.len().min(300)]));
}

#[test]
fn the_fixed_scripts_are_stable() {
    assert_stable(ringbox, scripts::RINGBOX_EDGES.as_bytes());
    assert_stable(telegrams, scripts::TELEGRAMS_EDGES.as_bytes());
    assert_stable(unit, scripts::UNIT_EDGES.as_bytes());
    assert_stable(ringbox, scripts::LISTS_EDGES.as_bytes());
    assert_stable(ringbox, &generate::ringbox_limits());
    assert_stable(ringbox, &generate::lists_limits());
    assert_stable(unit, &generate::unit_limits());
}

#[test]
fn generated_scripts_are_stable_and_repeat() {
    for seed in 0..12 {
        let script = generate::ringbox(seed, 3000);
        assert!(script == generate::ringbox(seed, 3000));
        assert_stable(ringbox, &script);
        let script = generate::lists(seed, 3000);
        assert!(script == generate::lists(seed, 3000));
        assert_stable(ringbox, &script);
        let script = generate::telegrams(seed, 3000);
        assert!(script == generate::telegrams(seed, 3000));
        assert_stable(telegrams, &script);
        let script = generate::unit(seed, 3000);
        assert!(script == generate::unit(seed, 3000));
        assert_stable(unit, &script);
    }
}

const WORDS: [&[u8]; 36] = [
    b"fresh",
    b"room",
    b">",
    b"state",
    b"rows",
    b"lookup",
    b"listing",
    b"cut",
    b"cutall",
    b"join",
    b"payload",
    b"fill",
    b"count",
    b"rejoin",
    b"12",
    b"65535",
    b"0102000C",
    b"4D45",
    b"01",
    b"00000000",
    b"#",
    b"=",
    b"<",
    b"< 4D4F",
    b"< 4D4F 01 00000001 01",
    b"unit",
    b"unit 1 0101",
    b"22.01",
    b"31.FF",
    b"found",
    b"found 22 01 0101",
    b"known",
    b"list",
    b"self",
    b"0101",
    b"  ",
];

const LIST_WORDS: [&[u8]; 7] =
    [b"first", b"second", b"none", b"compare", b"first 3 0103", b"second\n", b"compare 20000\n"];

/// Bytes near the words of the language, with very long lines among them.
fn garbage(random: &mut Random) -> Vec<u8> {
    garbage_of(&WORDS, random)
}

/// The same with words of lists.
fn garbage_with_lists(random: &mut Random) -> Vec<u8> {
    garbage_of(&[&LIST_WORDS[..], &WORDS].concat(), random)
}

fn garbage_of(words: &[&[u8]], random: &mut Random) -> Vec<u8> {
    let mut text = Vec::new();
    for _ in 0..random.below(400) {
        match random.below(30) {
            0..=9 => text.extend_from_slice(random.pick(words)),
            10..=17 => text.push(b' '),
            18..=23 => text.push(b'\n'),
            24 => text.extend_from_slice(random.pick(&[&b"\r"[..], b"\t", b"\0", b"\r\n", b" \r \t"])),
            25..=27 => text.push(random.byte()),
            28 if random.chance(10) => {
                let length = text.len() + random.range(16_370, 16_400);
                text.resize(length, random.pick(b"0 4\rx\t"));
            }
            _ => text.push(random.pick(b"0123456789ABCDEFabcdef")),
        }
    }
    text
}

#[test]
fn random_bytes_are_stable() {
    for seed in 0..3000 {
        let script = garbage(&mut Random::new(seed));
        assert_stable(ringbox, &script);
        assert_stable(telegrams, &script);
        assert_stable(unit, &script);
    }
}

#[test]
fn garbage_with_words_of_lists_is_stable() {
    for seed in 0..3000 {
        let script = garbage_with_lists(&mut Random::new(seed));
        assert_stable(ringbox, &script);
        assert_stable(telegrams, &script);
        assert_stable(unit, &script);
    }
}

#[test]
fn bytes_at_random_are_stable() {
    let mut random = Random::new(9);
    let script: Vec<u8> = (0..500_000).map(|_| random.byte()).collect();
    assert_stable(ringbox, &script);
    assert_stable(telegrams, &script);
    assert_stable(unit, &script);
}

#[test]
fn lines_near_the_limit() {
    const LONG: &str = "# not understood: line of more than 16384 bytes\n";
    let expect = |script: Vec<u8>, wanted: String| {
        assert!(ringbox(&script) == wanted.as_bytes(), "{}", wanted.len());
        assert_stable(ringbox, &script);
    };
    let filled = |start: &str, length: usize, filler: char| {
        format!("{start}{}", filler.to_string().repeat(length - start.len()))
    };
    let comment = filled("#", 16_384, 'x');
    expect(comment.clone().into_bytes(), format!("{comment}\n"));
    expect(filled("#", 16_385, 'x').into_bytes(), format!("# #{}\n{LONG}", "x".repeat(63)));
    expect(filled("=", 16_384, 'x').into_bytes(), String::new());
    expect(filled("=", 16_385, 'x').into_bytes(), format!("# ={}\n{LONG}", "x".repeat(63)));
    let word = filled("x", 16_382, 'x');
    expect(word.clone().into_bytes(), format!("# {word}\n# not understood: unknown word\n"));
    expect(filled("x", 16_383, 'x').into_bytes(), format!("# {}\n{LONG}", "x".repeat(64)));
    expect(filled("state", 100_000, ' ').into_bytes(), "state\n= OFF pass 0 nodes 0 open 0 delay no\n".to_string());
    expect(
        format!("{}state", " ".repeat(16_379)).into_bytes(),
        "state\n= OFF pass 0 nodes 0 open 0 delay no\n".to_string(),
    );
    expect(format!("{}state", " ".repeat(16_380)).into_bytes(), format!("#\n{LONG}"));
    expect(filled(">", 16_383, '0').into_bytes(), format!("# >{}\n{LONG}", "0".repeat(63)));
    let fits = filled(">", 16_377, '0');
    let normal = format!("> 0000 00 00000000 00 {}\n! 2  record malformed\n", "0".repeat(16_376 - 16));
    assert_eq!(normal.lines().next().map(str::len), Some(16_382));
    expect(fits.into_bytes(), normal);
    expect(filled(">", 16_381, '0').into_bytes(), format!("# >{}\n{LONG}", "0".repeat(63)));
}

#[test]
fn ends_of_the_input() {
    assert_eq!(ringbox(b""), b"");
    assert_eq!(ringbox(b"\n"), b"\n");
    assert_eq!(ringbox(b"#"), b"#\n");
    assert_eq!(ringbox(b"# a\r\n\n# b \t\r"), b"# a\n\n# b\n");
    assert_eq!(ringbox(b"room 512"), b"room 512\n");
    assert_eq!(ringbox(b"= taken"), b"");
}

/// Why a line is no command.
fn reason(player: fn(&[u8]) -> Vec<u8>, line: &str) -> String {
    let output = String::from_utf8(player(line.as_bytes())).expect("text");
    assert!(output.starts_with(&format!("# {line}\n# not understood: ")), "{output}");
    output.trim_end().rsplit(": ").next().expect("a reason").to_string()
}

#[test]
fn the_order_of_reasons() {
    let reason = |line: &str| reason(ringbox, line);
    assert_eq!(reason("fresh 1x 2"), "not a decimal number");
    assert_eq!(reason("fresh 99999999999x"), "not a decimal number");
    assert_eq!(reason("fresh 4294967296 x"), "number does not fit");
    assert_eq!(reason("fresh 12 x"), "a word too many");
    assert_eq!(reason("fresh"), "a word is missing");
    assert_eq!(reason("room 8193"), "number does not fit");
    assert_eq!(reason("lookup 2x1 01"), "not hexadecimal");
    assert_eq!(reason("lookup 221 0x"), "wrong number of hex digits");
    assert_eq!(reason("lookup 22"), "a word is missing");
    assert_eq!(reason("> 4D4 XX"), "odd number of hex digits");
    assert_eq!(reason("> 4D X 4"), "not hexadecimal");
    assert_eq!(reason(">>"), "not hexadecimal");
    assert_eq!(reason(" #"), "unknown word");
}

#[test]
fn the_order_of_reasons_of_lists() {
    let reason = |line: &str| reason(ringbox, line);
    for word in ["first", "second"] {
        let reason = |words: &str| reason(&format!("{word} {words}"));
        for words in ["x", "None", "nones", "3x", "-1", "3x 01", "=", "#", "none\r x"] {
            assert_eq!(reason(words), "not a decimal number");
        }
        for words in ["256", "256 x", "4294967296 0103"] {
            assert_eq!(reason(words), "number does not fit");
        }
        for words in ["3", "0", "255"] {
            assert_eq!(reason(words), "a word is missing");
        }
        for words in ["3 x", "3 22.01", "3 01x3 x", "3 ----"] {
            assert_eq!(reason(words), "not hexadecimal");
        }
        for words in ["3 103", "3 00103", "3 01 x"] {
            assert_eq!(reason(words), "wrong number of hex digits");
        }
        for words in ["3 0103 x", "3 0103 2201", "3 0103 22.01 none", "3 0103 22.01 22.0"] {
            assert_eq!(reason(words), "not a pair");
        }
        for words in ["none x", "none none", "none 3 0103"] {
            assert_eq!(reason(words), "a word too many");
        }
        let pairs = |count: usize| " fE.0a".repeat(count);
        assert_eq!(reason(&format!("3 0103{}", pairs(256))), "too many");
        assert_eq!(reason(&format!("3 0103{} x", pairs(256))), "too many");
        assert_eq!(reason(&format!("3 0103{} x", pairs(255))), "not a pair");
    }
    assert_eq!(reason("compare"), "a word is missing");
    assert_eq!(reason("compare x 1"), "not a decimal number");
    assert_eq!(reason("compare 20001 x"), "number does not fit");
    assert_eq!(reason("compare 20000 x"), "a word too many");
    for line in ["First", "seconds", "none", "Compare 0", "compare0"] {
        assert_eq!(reason(line), "unknown word");
    }
}

/// A row too many is looked for behind the words; it changes nothing.
#[test]
fn a_65th_row() {
    let rows = |word: &str| (1..=64).map(|row| format!("{word} {row} 0101\n")).collect::<String>();
    let last = |script: String| {
        let output = String::from_utf8(ringbox(script.as_bytes())).expect("text");
        output.lines().last().expect("a line").to_string()
    };
    for (word, other) in [("first", "second"), ("second", "first")] {
        let full = rows(word);
        for (line, answer) in [
            ("65 0101 22.01", "# not understood: too many"),
            ("65 0101 22.1", "# not understood: not a pair"),
            ("256 0101", "# not understood: number does not fit"),
            ("65", "# not understood: a word is missing"),
            ("none x", "# not understood: a word too many"),
            ("none\ncompare 0", "= differences 0"),
            ("\ncompare 0", "= differences 0"),
            ("65 0101\ncompare 0", "! 2  position not 1 to 63, more than 24 pairs, or a pair twice"),
        ] {
            assert_eq!(last(format!("{full}{word} {line}")), answer);
        }
        assert_eq!(last(format!("{full}{other} 1 0101")), format!("{other} 1 0101"));
        let filled = |length: usize| format!("{full}{word:<width$}1 0101", width = length - 6);
        assert_eq!(last(filled(16_382)), "# not understood: too many");
        assert_eq!(last(filled(16_383)), "# not understood: line of more than 16384 bytes");
    }
}

#[test]
fn differences_in_words() {
    let script = "first  001 0101 22.01\nfirst 3 0103 fE.0a 31.01\n second\t2 01aB 40.ff\nsecond 3 0105 31.01 22.02\ncompare 0036
compare 35\nsecond 3 0103\ncompare 0\nsecond 64 0140\ncompare 0\nsecond none\nfirst none\ncompare 0\n";
    let wanted =
        "first 1 0101 22.01\nfirst 3 0103 FE.0A 31.01\nsecond 2 01AB 40.FF\nsecond 3 0105 31.01 22.02\ncompare 36
= differences 6
= 1 1 0000 00 00  position 1 is gone
= 2 2 01AB 00 00  position 2 is new, with address 01AB
= 5 2 0000 40 FF  position 2: pair 40.FF is new
= 3 3 0105 00 00  position 3: the address is now 0105
= 4 3 0000 FE 0A  position 3: pair FE.0A is gone
= 5 3 0000 22 02  position 3: pair 22.02 is new
compare 35\n! 21  no room for all differences
second 3 0103\ncompare 0\n! 20  rows not in rising position order
second 64 0140\ncompare 0\n! 2  position not 1 to 63, more than 24 pairs, or a pair twice
second none\nfirst none\ncompare 0\n= differences 0\n";
    assert_eq!(String::from_utf8(ringbox(script.as_bytes())).expect("text"), wanted);
}

/// The picture's rows take the place of a list; `fresh`, records and refusals leave both lists.
#[test]
fn two_days_are_compared() {
    let day = "room 8192\n> 4D45 01 00000000 04\n> 4D45 04 00000001 01 0101 01 2201\n> 4D45 04 00000001 02 0102 02 2201 3101\n";
    let next = "> 4D45 04 00000001 03 0103 00\n> 4D45 05 00000001 02\n";
    let script = format!(
        "first 9 0109\nfresh 12\n{day}first\nfirst 3 0104 40.01\nfresh 13\n{day}{next}second\n> 4D45 03 00000000 00\nfresh 9\nfirst x\ncompare 20000\n"
    );
    let output = String::from_utf8(ringbox(script.as_bytes())).expect("text");
    let wanted = "
compare 20000
= differences 3
= 1 2 0000 00 00  position 2 is gone
= 3 3 0103 00 00  position 3: the address is now 0103
= 4 3 0000 40 01  position 3: pair 40.01 is gone
";
    assert!(output.ends_with(wanted), "{output}");
    let output = String::from_utf8(ringbox(format!("{script}second\nfirst\ncompare 0").as_bytes())).expect("text");
    assert!(output.ends_with("second\nfirst\ncompare 0\n= differences 0\n"), "{output}");
}

#[test]
fn normal_forms() {
    assert_eq!(
        ringbox(b"  >4d45040000000101\t010102 22013101"),
        b"> 4D45 04 00000001 01 0101 02 2201 3101\n! 3  the ring does not run\n"
    );
    assert_eq!(ringbox(b"> 4D450500000001010203"), b"> 4D45 05 00000001 01 0203\n! 2  record malformed\n");
    assert_eq!(ringbox(b"> 4D450400"), b"> 4D45 04 00\n! 2  record malformed\n");
    assert_eq!(ringbox(b"room 00512 \r"), b"room 512\n");
    assert_eq!(ringbox(b"lookup  fe ab"), b"lookup FE AB\n! 18  the state is not OK\n");
    assert_eq!(
        telegrams(b"join 012 65535 01 02 000c 0001 ff"),
        b"join 12 65535 0102000C 0001 FF\n= message 0102000C 1\n= FF\n"
    );
    assert_eq!(telegrams(b"join 12 1 0102000c00"), b"join 12 1 0102000C 00\n! 13  lent room too short\n");
    assert_eq!(telegrams(b"payload\tff  aA"), b"payload FFAA\n");
    assert_eq!(
        telegrams(b"fill 0 0\ncutall 12 0000000a"),
        b"fill 0 0\ncutall 12 0000000A\n= count 1\n= telegram 0000000A 0000\n"
    );
}

#[test]
fn the_order_of_reasons_of_a_unit() {
    let reason = |line: &str| reason(unit, line);
    assert_eq!(reason("unit"), "a word is missing");
    assert_eq!(reason("unit 1"), "a word is missing");
    assert_eq!(reason("unit 1x 010 x"), "not a decimal number");
    assert_eq!(reason("unit 256 x"), "number does not fit");
    assert_eq!(reason("unit 1 01x x"), "not hexadecimal");
    assert_eq!(reason("unit 1 22.01"), "not hexadecimal");
    assert_eq!(reason("unit 1 010 x"), "wrong number of hex digits");
    assert_eq!(reason("unit 1 00101"), "wrong number of hex digits");
    for word in ["x", "2201", "22.1", "2.01", "22.001", "022.01", "22.0G", "G2.01", "22,01", "2..01", "22.01."] {
        assert_eq!(reason(&format!("unit 1 0101 22.01 {word}")), "not a pair");
    }
    let pairs = |count: usize| " fE.0a".repeat(count);
    assert_eq!(reason(&format!("unit 1 0101{}", pairs(256))), "too many");
    assert_eq!(reason(&format!("unit 1 0101{} x", pairs(256))), "too many");
    assert_eq!(reason(&format!("unit 1 0101{} x", pairs(255))), "not a pair");
    assert_eq!(reason(&format!("unit 1 0101 x{}", pairs(256))), "not a pair");
    assert_eq!(reason("found 22 01"), "a word is missing");
    assert_eq!(reason("found 2x1 01 0101"), "not hexadecimal");
    assert_eq!(reason("found 221 0x 0101"), "wrong number of hex digits");
    assert_eq!(reason("found 22 01 010"), "wrong number of hex digits");
    assert_eq!(reason("found 22 01 0101 x"), "a word too many");
    for word in ["known", "list", "self"] {
        assert_eq!(reason(&format!("{word} x")), "a word too many");
    }
    assert_eq!(reason("room 8193"), "number does not fit");
    assert_eq!(reason("< 4D4 XX"), "odd number of hex digits");
    assert_eq!(reason("< 4D X 4"), "not hexadecimal");
    assert_eq!(reason("< 4D4F 03 00000000 x  y"), "not hexadecimal");
    assert_eq!(reason("<x"), "not hexadecimal");
    assert_eq!(reason("<<"), "not hexadecimal");
    for line in [" #", " > 4D45", " >", " =", "\t!", "state", "Unit 1 0101", "fresh 12"] {
        assert_eq!(reason(line), "unknown word");
    }
}

#[test]
fn a_unit_at_the_start() {
    assert_eq!(
        unit(b"self\nlist\nknown\n< 4D4F 01 00000001 01\nroom 63\n<\nroom 64\n<"),
        b"self\n= 1 0101 pass 0\nlist\n= list 0\nknown\n= known 0\n< 4D4F 01 00000001 01\n= read\n> 4D45 04 00000001 01 0101 00
room 63\n<\n! 1  room below 64 bytes\nroom 64\n<\n! 2  order malformed\n"
    );
    assert_eq!(unit(b"> x\n= x\n! x\n>\n=\n!\n>>"), b"");
    assert_eq!(ringbox(b"< x\n= x\n! x\n<\n=\n!\n<<"), b"");
}

#[test]
fn answers_of_a_unit() {
    let script = "unit 002 01aB 22.01 fE.0a\nself\nlist\n<4d4f 01 0000000a 02\n< 4D4F 02 0000000A 02 01AB FE 0A 0B\nfound 22 1a 0FaC
found 31 01 0101\nknown\n< 4D4F 06 0000000A 01 221A\nknown\n< 4D4F 01 0000000A 01\nself\nlist\n";
    let wanted = "unit 2 01AB 22.01 FE.0A\n= unit 2 01AB 2\nself\n= 2 01AB pass 0\nlist\n= list 2\n= 22 01\n= FE 0A
< 4D4F 01 0000000A 02\n= read\n> 4D45 04 0000000A 02 01AB 02 2201 FE0A
< 4D4F 02 0000000A 02 01AB FE 0A 0B\n= read\n> 4D45 04 0000000A 02 01AB 02 2201 FE0B
found 22 1A 0FAC\nfound 31 01 0101\nknown\n= known 2\n= 22 1A 0FAC\n= 31 01 0101
< 4D4F 06 0000000A 01 221A\n= read\nknown\n= known 1\n= 31 01 0101
< 4D4F 01 0000000A 01\n= read\nself\n= 2 01AB pass 10\nlist\n= list 2\n= 22 01\n= FE 0B\n";
    assert_eq!(String::from_utf8(unit(script.as_bytes())).expect("text"), wanted);
}

/// The unit in play is the new one, also with `! 2`; the room stays.
#[test]
fn a_unit_with_25_pairs() {
    let script = format!(
        "< 4D4F 03 00000007\nfound 22 01 0101\nroom 63\nunit 9 0109{}\nself\nlist\nknown\n<\n",
        " 22.01".repeat(25)
    );
    let output = String::from_utf8(unit(script.as_bytes())).expect("text");
    let wanted = "! 2  more than 24 pairs\nself\n= 9 0109 pass 0\nlist\n= list 0\nknown\n= known 0\n<\n! 1  room below 64 bytes\n";
    assert!(output.ends_with(wanted), "{output}");
}

/// Two blanks in a row end the bytes of an order; blanks in front of the first group do not.
#[test]
fn words_behind_an_order() {
    let read = "< 4D4F 03 00000000\n= read\n";
    for line in [
        "< 4D4F 03 00000000  OK: the registry stands",
        "<4d4f0300000000  x",
        "<  \t 4D4F 03\t00000000\t\t4",
        " \t<4D 4F 03 00 00 00 00 \t< 4D4F",
        "< 4D4F 03 00000000\t #",
        "< 4D4F 03 00000000  \r  x",
        "< 4D4F 03 00000000 \r\t ",
    ] {
        assert_eq!(String::from_utf8(unit(line.as_bytes())).expect("text"), read);
    }
    for line in ["< 4D4F  03 00000000", "<4D4F\t\t03", "<  4D4F \tXX", "< 4D4F\t 0"] {
        assert_eq!(unit(line.as_bytes()), b"< 4D4F\n! 2  order malformed\n");
    }
    for line in ["<", "< ", "<\t \t", " <\r"] {
        assert_eq!(unit(line.as_bytes()), b"<\n! 2  order malformed\n");
    }
}

#[test]
fn normal_forms_of_orders() {
    let normal = |bytes: &str| {
        let output = String::from_utf8(unit(format!("<{bytes}").as_bytes())).expect("text");
        output.lines().next().expect("a line").to_string()
    };
    let all = "4D4FKK0000000102030405060708091011";
    let form = |kind: &str, wanted: &str| {
        for length in (0..=all.len()).step_by(2) {
            let line = all.replace("KK", kind)[..length].to_string();
            let mut left = &line[..];
            let mut shown = "<".to_string();
            for group in wanted.split(' ') {
                let (part, rest) = left.split_at(group.len().min(left.len()));
                left = rest;
                shown.push_str(&if part.is_empty() { String::new() } else { format!(" {part}") });
            }
            assert_eq!((left, normal(&line)), ("", shown));
        }
    };
    for kind in ["01", "03", "04", "07", "08"] {
        form(kind, "4D4F KK 00000001 02 030405060708091011");
    }
    form("02", "4D4F KK 00000001 02 0304 05 06 0708091011");
    for kind in ["05", "06"] {
        form(kind, "4D4F KK 00000001 02 0304 0506 0708 0910 11");
    }
    for kind in ["00", "09", "0A", "82", "FF"] {
        form(kind, "4D4F KK 00000001 02030405060708091011");
    }
}

#[test]
fn orders_near_the_limit() {
    const LONG: &str = "# not understood: line of more than 16384 bytes\n";
    let longest = |kind: u8, most: usize| {
        let order = |length: usize| format!("<4D4F{kind:02X}{}", "0".repeat(2 * length - 6));
        let taken = String::from_utf8(unit(order(most).as_bytes())).expect("text");
        assert!(taken.ends_with("\n! 2  order malformed\n") && taken.starts_with("< 4D4F"), "{}", taken.len());
        assert!(taken.lines().next().is_some_and(|line| (16_383..=16_384).contains(&line.len())));
        let refused = String::from_utf8(unit(order(most + 1).as_bytes())).expect("text");
        assert_eq!(refused, format!("# {}\n{LONG}", &order(most + 1)[..64]));
    };
    longest(1, 8_189);
    longest(2, 8_187);
    longest(5, 6_553);
    longest(6, 6_553);
    longest(8, 8_189);
    longest(9, 8_189);
    let words = |length: usize| format!("{:x<length$}", "< 4D4F 03 00000001  ");
    assert_eq!(unit(words(16_384).as_bytes()), b"< 4D4F 03 00000001\n= read\n");
    let refused = format!("# {}\n{LONG}", &words(16_385)[..64]);
    assert_eq!(unit(words(16_385).as_bytes()), refused.as_bytes());
}

/// What ringbox writes is read by unit, and what unit writes is read by ringbox.
#[test]
fn ringbox_and_unit_are_mirrors() {
    let mut master = Ringbox::new();
    let mut slave = UnitBench::new();
    play_bytes(&mut slave, b"unit 2 0102 22.01");
    let mut records = b"> 4D45 01 00000000 03\n> 4D45 04 00000001 01 0101 01 2201\n".to_vec();
    while !records.is_empty() {
        let orders = lines_with(&play_bytes(&mut master, &records), b'<');
        records = lines_with(&play_bytes(&mut slave, &orders), b'>');
    }
    let text = String::from_utf8(play_bytes(&mut master, b"listing")).expect("text");
    assert_eq!(text, "listing\n= listing 2\n= 1 0101 22 01\n= 2 0102 22 02\n");
    assert_eq!(play_bytes(&mut slave, b"list\nself"), b"list\n= list 1\n= 22 02\nself\n= 2 0102 pass 1\n");
}

fn lines_with(text: &[u8], mark: u8) -> Vec<u8> {
    text.split_inclusive(|&byte| byte == b'\n').filter(|line| line[0] == mark).flatten().copied().collect()
}

#[test]
fn order_lines_in_words() {
    let script = "> 4D45 01 00000000 03\n> 4D45 04 00000001 01 0101 01 2201\n> 4D45 04 00000001 02 0102 01 2201\n> 4D45 04 00000001 02 0102 01 2202
> 4D45 04 00000001 02 0102 02 3101 3102\n> 4D45 04 00000001 02 0102 01 2200\n> 4D45 05 00000001 02\n> 4D45 02 00000000 02
> 4D45 04 00000002 01 0300 00\n";
    let output = String::from_utf8(ringbox(script.as_bytes())).expect("text");
    let answers: Vec<&str> = output.lines().filter(|line| line.starts_with('<')).collect();
    assert_eq!(
        answers,
        [
            "< 4D4F 01 00000001 01  ASK position 1",
            "< 4D4F 01 00000001 02  ASK position 2",
            "< 4D4F 02 00000001 02 0102 22 01 02  SET position 2 (0102): 22.01 becomes 22.02",
            "< 4D4F 03 00000001  OK: the registry stands",
            "< 4D4F 06 00000001 01 2202  INVALID: 22.02",
            "< 4D4F 05 00000001 02 3101 3102  NEW: 31.01 31.02",
            "< 4D4F 06 00000001 02 3101 3102  INVALID: 31.01 31.02",
            "< 4D4F 02 00000001 02 0102 22 00 02  SET position 2 (0102): 22.00 becomes 22.02",
            "< 4D4F 07 00000001  WAIT SHORT: then DELAY asks the silent units",
            "< 4D4F 01 00000002 01  ASK position 1",
            "< 4D4F 06 00000002 01 2201  INVALID: 22.01",
            "< 4D4F 04 00000003  NOTOK: the registry is made anew",
            "< 4D4F 01 00000003 01  ASK position 1",
        ]
    );
}

/// A line of 100 MB goes through with bounded memory.
#[test]
fn a_very_long_line() {
    fn through<B: Bench>(bench: &mut B, byte: u8) -> Vec<u8> {
        let line = (&b"state"[..]).chain(std::io::repeat(byte).take(100_000_000)).chain(&b"\nstate"[..]);
        let mut input = BufReader::with_capacity(1 << 16, line);
        assert!(!input.fill_buf().expect("bytes").is_empty());
        let mut output = Vec::new();
        play(bench, &mut input, &mut output).expect("a vector takes all bytes");
        output
    }
    let state = "state\n= OFF pass 0 nodes 0 open 0 delay no\n";
    assert_eq!(through(&mut Ringbox::new(), b' '), format!("{state}{state}").as_bytes());
    let long = format!("# state{}\n# not understood: line of more than 16384 bytes\n{state}", "\0".repeat(59));
    assert_eq!(through(&mut Ringbox::new(), 0), long.as_bytes());
}
