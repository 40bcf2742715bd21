//! Trees from words, and what is no words of a tree.

use lemboraw::{
    Action, After, AlwaysSucceed, Behavior, Fault, If, Invert, Kind, Race, Refusal, Select, Sequence, Timeout, Wait,
    WaitForever, WhenAll, WhenAny, While, WhileAll, BT,
};
use std::fs::{read_to_string, File};
use std::path::Path;
use std::process::Command;

fn read(words: &str) -> Behavior<u16> {
    Behavior::from_words(words).unwrap()
}

/// The line and the text of what is wrong.
fn wrong(words: &str) -> (usize, String) {
    let error = Behavior::from_words(words).unwrap_err();
    assert_eq!(error.to_string(), format!("line {}: {}", error.line, error.why));
    (error.line, error.why)
}

#[test]
fn every_kind() {
    let b = |behavior: Behavior<u16>| Box::new(behavior);
    let all = WhenAll(vec![
        Wait(2.0),
        WaitForever,
        Action(65535),
        Invert(b(Wait(0.5))),
        AlwaysSucceed(b(Action(0))),
        Timeout(3.0, b(Action(1))),
        Select(vec![Action(2), Action(3)]),
        If(b(Action(4)), b(Action(5)), b(Action(6))),
        Sequence(vec![Action(7)]),
        Sequence(vec![Action(8)]).memory(false),
        Select(vec![]).memory(false),
        While(b(Action(9)), vec![Action(10), Action(11)]),
        WhileAll(b(Action(12)), vec![Action(13)]),
        WhenAny(vec![]),
        After(vec![Action(14)]),
        Race(vec![Action(15)]),
    ]);
    // As `tools/frames.py words` writes them: with each number, and indented.
    let counted = "\
node WhenAll 16
  node Wait 0 limit 2
  node WaitForever 0
  node Action 65535
  node Invert 1
    node Wait 0 limit 0.5
  node AlwaysSucceed 1
    node Action 0
  node Timeout 1 limit 3
    node Action 1
  node Select 2
    node Action 2
    node Action 3
  node If 3
    node Action 4
    node Action 5
    node Action 6
  node Sequence 1
    node Action 7
  node MemorylessSequence 1
    node Action 8
  node MemorylessSelector 0
  node While 3
    node Action 9
    node Action 10
    node Action 11
  node WhileAll 2
    node Action 12
    node Action 13
  node WhenAny 0
  node After 1
    node Action 14
  node Race 1
    node Action 15
tick update 1 fuel 16
node is not looked at here
";
    assert_eq!(read(counted), all);
    // The numbers alone say it too, and so does indentation alone.
    let flat: String = counted.lines().map(|line| line.trim_start().to_owned() + "\n").collect();
    assert_eq!(read(&flat), all);
    let uncounted: String = counted
        .lines()
        .map(|line| {
            let words: Vec<_> = line.split(' ').collect();
            let number = words.iter().position(|word| word.parse::<u16>().is_ok());
            match number {
                Some(at) if !line.contains("Action") && !line.starts_with("tick") => {
                    [&words[..at], &words[at + 1..]].concat().join(" ") + "\n"
                }
                _ => line.to_owned() + "\n",
            }
        })
        .collect();
    assert!(uncounted.starts_with("node WhenAll\n  node Wait limit 2\n  node WaitForever\n"), "{uncounted}");
    assert_eq!(read(&uncounted), all);
}

#[test]
fn remarks_and_what_follows_the_tree() {
    let words = "
        # a station

        node Select             # once
          node kind:05 1 limit 30
            node Action 1       # scan
          # and
          node Wait limit 5
        restart other fuel 9
    ";
    assert_eq!(read(words), Select(vec![Timeout(30.0, Box::new(Action(1))), Wait(5.0)]));
}

/// Frames of bonsai's sample, put into words by the script, give the tree that the frames are, with
/// plus zero for minus zero.
#[test]
fn the_words_of_the_script() {
    let repository = Path::new(env!("CARGO_MANIFEST_DIR")).join("../..");
    for number in (0..40).step_by(4) {
        let frames = repository.join(format!("rust/sample/{number:02}.stdin"));
        let script = Command::new("python3")
            .arg(repository.join("tools/frames.py"))
            .arg("words")
            .stdin(File::open(&frames).unwrap())
            .output()
            .unwrap();
        let bt = BT::new(read(&String::from_utf8(script.stdout).unwrap()), ()).unwrap();
        let written = bt.nodes().map(|node| {
            let children = bt.nodes().skip(node.place + 1).take_while(|below| below.depth > node.depth);
            let n = node.action.map_or(children.filter(|below| below.depth == node.depth + 1).count(), |&n| n.into());
            format!("01 {:02x} {n:04x} {:016x}\n", node.kind.number(), node.limit.unwrap_or(0.0).to_bits())
        });
        let frames = read_to_string(frames).unwrap().replace("8000000000000000", "0000000000000000");
        let nodes: String =
            frames.lines().filter(|line| line.starts_with("01")).map(|line| line.to_owned() + "\n").collect();
        assert_eq!(written.collect::<String>(), nodes);
    }
}

#[test]
fn times() {
    let limit = |word: &str| match Behavior::from_words(&format!("node Wait limit {word}")) {
        Ok(Wait(limit)) => Ok(limit.to_bits()),
        Ok(other) => panic!("{other:?}"),
        Err(error) => Err(error.why),
    };
    for (word, value) in [
        ("0", 0.0),
        ("-0", -0.0),
        ("007", 7.0),
        ("0.50", 0.5),
        ("1e3", 1000.0),
        ("1000e-3", 1.0),
        ("12.5e1", 125.0),
        ("1e+22", 1e22),
        ("0x4008000000000000", 3.0),
        ("0x7ff8000000000000", f64::NAN),
        ("~0.1", 0.1),
        ("~1e-400", 0.0),
        ("~3", 3.0),
    ] {
        assert_eq!(limit(word), Ok(value.to_bits()), "{word}");
    }
    // All 751 digits of the smallest number, and the first whole number that is none.
    assert_eq!(limit(&format!("{:.1074}", 5e-324)), Ok(1));
    assert!(limit("9007199254740993").unwrap_err().starts_with("limit: \"9007199254740993\" is no f64;"));
    assert_eq!(
        limit("0.1").unwrap_err(),
        "limit: \"0.1\" is no f64; write ~ before the number to take the nearest, or 0x3fb999999999999a"
    );
    for word in ["1e400", "~1e400", "~9e99999999999999999"] {
        assert!(limit(word).is_err(), "{word}");
    }
    for word in
        ["", "x", "1.", ".5", "1e", "1e+-3", "+1", "0x1", "0x4008000000000000 0", "1_0", "inf", "NaN", "~", "--1"]
    {
        assert!(limit(word).is_err(), "{word}");
    }
    let long = "9".repeat(5000);
    let told = format!("limit: \"{}\".. is larger than every f64", &long[..40]);
    assert_eq!(limit(&long).unwrap_err(), told);
    assert_eq!(limit(&format!("~0.{long}")), Ok(1f64.to_bits()));
    assert!(limit(&format!("0.{long}")).unwrap_err().ends_with("or 0x3ff0000000000000"));
    assert!(limit("1e-99999999999999999999").is_err());
}

#[test]
fn what_is_wrong_and_in_which_line() {
    for (words, line, why) in [
        ("", 1, "there is no node"),
        ("\nnode", 2, "kind is missing"),
        ("node Wait 0\nnode Wait 0", 2, "this node is not part of the tree above it"),
        ("node Sequence 2\n  node Wait 0", 1, "n: 2 children are wanted, and 1 follow"),
        ("node Invert\n  node Wait\n  node Wait", 1, "n: Invert can't have 2 children"),
        ("node Timeout limit 3", 1, "n: Timeout can't have 0 children"),
        ("node While", 1, "n: While can't have 0 children"),
        ("node If 2\nnode Wait\nnode Wait", 1, "n: If can't have 2 children"),
        ("node Wait\n  node Wait", 1, "n: Wait can't have 1 children"),
        (
            "node Sequence\n    node Wait\n  node Wait",
            3,
            "indentation: as deep as no other node below line 1, whose children are counted",
        ),
        ("node Sequence\n\tnode Wait", 2, "indentation: only spaces, where a number of children is left out"),
        ("node Action", 1, "n (the action's number) is missing"),
        ("node Action # scan", 1, "n (the action's number) is missing"),
        ("node Action 65536", 1, "n: \"65536\" is above 65535"),
        ("node Wait limit", 1, "limit is missing"),
        ("node Wait 0 0", 1, "the word limit is wanted, and not \"0\""),
        ("node Wait zero", 1, "n: \"zero\" is no number"),
        ("node Wait 0 limit 1 1", 1, "\"1\" is one word too many"),
        ("node Wait limit soon", 1, "limit: \"soon\" is no time, as 2, 0.5, ~0.1 or 0x and 16 digits"),
        ("node Sequence limit 1\n  node Wait", 1, "limit: Sequence has none"),
        ("nodes", 1, "\"nodes\" is neither node, tick nor restart"),
    ] {
        assert_eq!(wrong(words), (line, why.to_owned()), "{words}");
    }
    let (line, why) = wrong("node Waiting 0");
    assert_eq!(line, 1);
    assert!(why.starts_with("kind: \"Waiting\" is unknown; there are Wait, WaitForever, Action,"), "{why}");
    assert!(why.ends_with("After, Race"), "{why}");
    // A number that is given stands, whatever the indentation is.
    assert_eq!(read("node Sequence 1\n\tnode Wait 0"), Sequence(vec![Wait(0.0)]));
}

#[test]
fn a_tree_too_large_is_refused_as_such() {
    let words = |n: usize| "node WhenAll\n".to_owned() + &"  node Wait\n".repeat(n);
    let refused = BT::new(read(&words(256)), ()).err();
    assert_eq!(refused, Some(Refusal::BadTree { place: 256, kind: Kind::Wait, fault: Fault::TooMany }));
    assert_eq!(wrong(&words(257)), (258, "more than 257 nodes".to_owned()));
}
