//! A tree and a tick of it, as a tester sees them.

use lemboraw::{
    Action, ActionArgs, Event, Failure, If, Kind, Node, Running, Select, Sequence, Success, Timeout, UpdateArgs, Wait,
    WhenAny, BT,
};

/// A station after one tick: the lane is free, and the scanner answers nothing yet.
fn station() -> BT<&'static str, ()> {
    let scan = Timeout(500.0, Box::new(Action("scan")));
    let rework = If(Box::new(Action("call")), Box::new(Wait(1.0)), Box::new(WhenAny(vec![])));
    let mut bt = BT::new(Select(vec![Sequence(vec![Wait(200.0), Action("lane"), scan]), rework]), ()).unwrap();
    let act = &mut |args: ActionArgs<Event, &'static str>, _: &mut ()| match *args.action {
        "lane" => (Success, args.dt),
        _ => (Running, 0.0),
    };
    bt.tick(&UpdateArgs { dt: 300.0 }.into(), act).unwrap();
    bt
}

#[test]
fn as_a_text_tree() {
    let text = "\
Running     1  Select
Running     1    Sequence
Success     0      Wait 200.0 (0.0 passed)
Success     0      Action \"lane\"
Running     0      Timeout 500.0 (100.0 passed)
Running     0        Action \"scan\"
-           1    If
-           1      Action \"call\"
-           1      Wait 1.0 (0.0 passed)
-           1      WhenAny
";
    assert_eq!(station().to_string(), text);
}

#[test]
fn as_nodes_in_preorder() {
    let bt = station();
    assert_eq!(bt.len(), 10);
    let nodes: Vec<_> = bt.nodes().collect();
    assert_eq!(nodes.iter().map(|node| node.place).collect::<Vec<_>>(), (0..10).collect::<Vec<_>>());
    assert_eq!(nodes.iter().map(|node| node.depth).collect::<Vec<_>>(), [1, 2, 3, 3, 3, 4, 2, 3, 3, 3]);
    let plain =
        Node { place: 0, depth: 1, kind: Kind::Select, action: None, limit: None, elapsed: None, status: None, age: 1 };
    assert_eq!(nodes[0], Node { status: Some(Running), ..plain });
    assert_eq!(
        nodes[4],
        Node {
            place: 4,
            depth: 3,
            kind: Kind::Timeout,
            limit: Some(500.0),
            elapsed: Some(100.0),
            status: Some(Running),
            age: 0,
            ..plain
        }
    );
    assert_eq!(nodes[7], Node { place: 7, depth: 3, kind: Kind::Action, action: Some(&"call"), ..plain });
}

#[test]
fn as_a_graph() {
    // A quote and a backslash have to be written so that a label stays one.
    let mut bt = BT::new(Sequence(vec![Action("a\"\\"), Action("b")]), ()).unwrap();
    let dot = |statuses: [&str; 3], root_age: u64| {
        format!(
            "digraph {{\n  ordering=out;\n  node [shape=box style=filled];\n  edge [arrowhead=none];\n\
             \x20 0 [label=\"Sequence\\nage {root_age}\" fillcolor={}];\n\
             \x20 1 [label=\"Action \\\"a\\\\\\\"\\\\\\\\\\\"\\nage 0\" fillcolor={}];\n  0 -> 1;\n\
             \x20 2 [label=\"Action \\\"b\\\"\\nage 0\" fillcolor={}];\n  0 -> 2;\n}}\n",
            statuses[0], statuses[1], statuses[2]
        )
    };
    assert_eq!(bt.dot(), dot(["white", "white", "white"], 0));
    let act =
        &mut |args: ActionArgs<Event, &str>, _: &mut ()| (if *args.action == "b" { Failure } else { Success }, 0.0);
    bt.tick(&UpdateArgs { dt: 1.0 }.into(), act).unwrap();
    assert_eq!(bt.dot(), dot(["lightcoral", "palegreen", "lightcoral"], 1));
}
