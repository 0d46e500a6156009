//! The text of the tree: worked examples, faults and round trips.

use second::generate::Rng;
use second::refusal::Refusal;
use second::request::{Request, IDLE, LEAVE, SEND, TAKE};
use second::text::{read, write};
use second::tree::{Tree, MAX_NODES, NONE};

/// A tree in which each pair (engager, node) was engaged in turn.
fn engaged(n: usize, root: usize, pairs: &[(usize, usize)]) -> Tree {
    let mut tree = Tree::start(n, root).expect("an accepted start");
    for &(engager, node) in pairs {
        for (kind, i, j) in [(SEND, engager, node), (TAKE, node, engager)] {
            assert_eq!(tree.step(Request::new(kind, i, j)), Ok(()));
        }
    }
    tree
}

fn written(tree: &Tree) -> String {
    let mut buffer = [0; 80];
    let length = write(tree, &mut buffer).expect("room enough");
    String::from_utf8(buffer[..length].to_vec()).expect("a text of ASCII")
}

#[test]
fn worked_examples() {
    let tree = engaged(4, 0, &[(0, 2), (2, 3), (0, 1)]);
    assert_eq!(written(&tree), "(0 (1) (2 (3)))");
    assert_eq!(written(&engaged(3, 0, &[])), "(0)");
    assert_eq!(written(&engaged(3, 2, &[(2, 1), (2, 0)])), "(2 (0) (1))");
    let tree = engaged(MAX_NODES, 12, &[(12, 15), (15, 0), (12, 11), (12, 9)]);
    assert_eq!(written(&tree), "(12 (9) (11) (15 (0)))");
}

#[test]
fn nodes_that_left_are_not_written() {
    let mut tree = engaged(3, 0, &[(0, 1), (0, 2)]);
    for (kind, i) in [(IDLE, 1), (LEAVE, 1)] {
        assert_eq!(tree.step(Request::new(kind, i, 0)), Ok(()));
    }
    assert_eq!(written(&tree), "(0 (2))");
}

#[test]
fn buffer_is_checked_after_soundness() {
    let tree = engaged(4, 0, &[(0, 2), (2, 3), (0, 1)]);
    let text = b"(0 (1) (2 (3)))";
    for length in 0..text.len() {
        let mut buffer = vec![7; length];
        assert_eq!(write(&tree, &mut buffer), Err(Refusal::ShortBuffer));
        assert_eq!(buffer, vec![7; length]);
    }
    for spare in [0, 1, 50] {
        let mut buffer = vec![7; text.len() + spare];
        assert_eq!(write(&tree, &mut buffer), Ok(text.len()));
        assert_eq!(&buffer[..text.len()], text);
        assert_eq!(buffer[text.len()..], vec![7; spare]);
    }
    let mut unsound = tree;
    unsound.acks[0] += 1;
    for length in [0, 80] {
        let mut buffer = vec![7; length];
        assert_eq!(write(&unsound, &mut buffer), Err(Refusal::Unsound));
        assert_eq!(buffer, vec![7; length]);
    }
}

#[test]
fn a_closed_tree_is_written() {
    let mut tree = engaged(2, 1, &[]);
    for kind in [3, 6] {
        assert_eq!(tree.step(Request::new(kind, 1, 0)), Ok(()));
    }
    assert!(tree.closed);
    assert_eq!(written(&tree), "(1)");
}

#[test]
fn longest_text() {
    // 16 nodes: 32 brackets, 10 + 2 * 6 digits and 15 spaces.
    let pairs: Vec<(usize, usize)> = (1..MAX_NODES).map(|i| (i - 1, i)).collect();
    let text = written(&engaged(MAX_NODES, 0, &pairs));
    assert_eq!(text.len(), 69);
    assert!(text.starts_with("(0 (1 (2 (3 ") && text.ends_with("(15))))))))))))))))"));
}

#[test]
fn readings() {
    let read = |n, text: &str| {
        let engagement = read(n, text.as_bytes()).expect("a text without fault");
        (engagement.root, engagement.engager[..5].to_vec())
    };
    assert_eq!(
        read(4, "(0 (1) (2 (3)))"),
        (0, vec![0, 0, 0, 2, NONE]),
        "the paper's example"
    );
    assert_eq!(read(1, "(0)"), (0, vec![0, NONE, NONE, NONE, NONE]));
    assert_eq!(read(5, "(3 (0) (4))"), (3, vec![3, NONE, NONE, 3, 3]));
    assert_eq!(
        read(MAX_NODES, "(15 (4 (1)))"),
        (15, vec![NONE, 4, NONE, NONE, 15])
    );
}

#[test]
fn faults() {
    let long = format!("(0 ({}))", "9".repeat(400));
    let long_open = format!("(1{}", "0".repeat(99));
    let long_zeros = format!("(0{})", "0".repeat(400));
    let cases: &[(&str, Refusal)] = &[
        ("", Refusal::NotAForm),
        ("(", Refusal::NotAForm),
        ("()", Refusal::NotAForm),
        ("0", Refusal::NotAForm),
        ("( 0)", Refusal::NotAForm),
        (" (0)", Refusal::NotAForm),
        ("(0) ", Refusal::NotAForm),
        ("(0)\n", Refusal::NotAForm),
        ("(0))", Refusal::NotAForm),
        ("(0)(1)", Refusal::NotAForm),
        ("(0 )", Refusal::NotAForm),
        ("(0 (1)", Refusal::NotAForm),
        ("(0 (1", Refusal::NotAForm),
        ("(0 1)", Refusal::NotAForm),
        ("(0(1))", Refusal::NotAForm),
        ("(0  (1))", Refusal::NotAForm),
        ("(0\t(1))", Refusal::NotAForm),
        ("(00)", Refusal::NotAForm),
        ("(01)", Refusal::NotAForm),
        ("(0 (03))", Refusal::NotAForm),
        ("(0 (09999))", Refusal::NotAForm),
        ("(-1)", Refusal::NotAForm),
        ("(x)", Refusal::NotAForm),
        ("(0 (2) (1))", Refusal::NotAForm),
        ("(0 (1) (1))", Refusal::NotAForm),
        ("(0 (0))", Refusal::NotAForm),
        ("(0 (1 (2)) (2))", Refusal::NotAForm),
        ("(0 (1 (0)))", Refusal::NotAForm),
        ("(3)", Refusal::UnknownNode),
        ("(3", Refusal::UnknownNode),
        ("(3x", Refusal::UnknownNode),
        ("(99999999999999999999 x", Refusal::UnknownNode),
        ("(0 (3))", Refusal::UnknownNode),
        ("(0 (4 (0) (00", Refusal::UnknownNode),
        ("(0 (18446744073709551616))", Refusal::UnknownNode),
        ("(18446744073709551617)", Refusal::UnknownNode),
        ("(4294967296)", Refusal::UnknownNode),
        ("(256)", Refusal::UnknownNode),
        // The first fault from the left decides.
        ("(0 (2) (1 (9)))", Refusal::NotAForm),
        ("(0 (2) (9) (1))", Refusal::UnknownNode),
        ("(0 (0 (9)))", Refusal::NotAForm),
        ("(0 (1) (3 (1)))", Refusal::UnknownNode),
        ("(0  (9))", Refusal::NotAForm),
        (&long, Refusal::UnknownNode),
        (&long_open, Refusal::UnknownNode),
        (&long_zeros, Refusal::NotAForm),
    ];
    for (text, refusal) in cases {
        assert_eq!(read(3, text.as_bytes()), Err(*refusal), "{text}");
    }
    assert_eq!(read(3, b"(\xff)"), Err(Refusal::NotAForm));
    assert_eq!(read(3, b"(0\0)"), Err(Refusal::NotAForm));
    assert_eq!(read(MAX_NODES, b"(0 (16))"), Err(Refusal::UnknownNode));
    assert_eq!(read(MAX_NODES, b"(0 (10) (9))"), Err(Refusal::NotAForm));
}

#[test]
fn size_is_checked_first() {
    for n in [0, 17, usize::MAX] {
        assert_eq!(read(n, b"(0)"), Err(Refusal::NodeCount));
        assert_eq!(read(n, b"x"), Err(Refusal::NodeCount));
    }
}

#[test]
fn every_cut_of_a_text_is_a_fault() {
    let text = b"(0 (1) (2 (3)))";
    for end in 0..text.len() {
        assert_eq!(read(4, &text[..end]), Err(Refusal::NotAForm));
    }
}

#[test]
fn round_trips_over_random_trees() {
    let mut rng = Rng::new(5);
    for _ in 0..3_000 {
        let n = 1 + rng.below(MAX_NODES);
        let root = rng.below(n);
        let mut inside = vec![root];
        let mut outside: Vec<usize> = (0..n).filter(|&i| i != root).collect();
        let mut pairs = Vec::new();
        for _ in 0..rng.below(n) {
            let node = outside.swap_remove(rng.below(outside.len()));
            pairs.push((rng.pick(&inside), node));
            inside.push(node);
        }
        let tree = engaged(n, root, &pairs);
        let engagement = read(n, written(&tree).as_bytes()).expect("a written text");
        assert_eq!(engagement.root, root);
        assert_eq!(engagement.engager, tree.engager);
    }
}
