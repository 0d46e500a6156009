//! Which sound open trees a run from a start reaches: with one to three nodes, and few sends, all of them.

use second::request::{Request, SEND, TAKE};
use second::tree::{Tree, NONE};

/// Every state that runs from the start with at most `sends` sends and no announcement reach.
fn reached(n: usize, sends: u32) -> Vec<Tree> {
    let mut found = vec![Tree::start(n, 0).expect("a start in range")];
    let mut at = 0;
    while at < found.len() {
        for request in requests(n) {
            let mut next = found[at].clone();
            let spent = request.kind == SEND && next.sends == sends;
            if !spent && next.step(request).is_ok() && !found.contains(&next) {
                found.push(next);
            }
        }
        at += 1;
    }
    found
}

/// All requests but announce.
fn requests(n: usize) -> impl Iterator<Item = Request> {
    (1..6).flat_map(move |kind| {
        (0..n).flat_map(move |i| (0..n).map(move |j| Request::new(kind, i, j)))
    })
}

/// Every sound open tree of n nodes with root 0 and at most `sends` sends.
fn sound(n: usize, sends: u32) -> Vec<Tree> {
    let mut found = Vec::new();
    for shape in 0..(n + 1).pow(n as u32) {
        for active in 0..1usize << n {
            for counts in lists(n * (n + 1), sends) {
                for made in 0..=sends {
                    let tree = filled(n, shape, active, &counts, made);
                    if tree.is_sound() {
                        found.push(tree);
                    }
                }
            }
        }
    }
    found
}

/// `counts` are of each node its messages to each, itself among them, and the acknowledgements to it.
fn filled(n: usize, shape: usize, active: usize, counts: &[u32], sends: u32) -> Tree {
    let mut tree = Tree::start(n, 0).expect("a start in range");
    tree.sends = sends;
    for i in 0..n {
        tree.active[i] = active >> i & 1 == 1;
        let engager = shape / (n + 1).pow(i as u32) % (n + 1);
        tree.engager[i] = if engager == n { NONE } else { engager };
    }
    for (i, counts) in counts.chunks(n + 1).enumerate() {
        tree.in_transit[i][..n].copy_from_slice(&counts[..n]);
        tree.acks[i] = counts[n];
        tree.unacked[i] = counts.iter().sum::<u32>() + tree.children(i).count() as u32;
    }
    tree
}

/// Lists of `places` numbers whose sum is at most `most`.
fn lists(places: usize, most: u32) -> Vec<Vec<u32>> {
    if places == 0 {
        return vec![Vec::new()];
    }
    (0..=most)
        .flat_map(|first| {
            lists(places - 1, most - first)
                .into_iter()
                .map(move |rest| {
                    let mut list = vec![first];
                    list.extend(rest);
                    list
                })
        })
        .collect()
}

fn choose(from: u32, places: u32) -> u32 {
    (0..places).fold(1, |product, k| product * (from - k) / (k + 1))
}

/// How many there are. With `engaged` nodes besides the root: which these are, the trees on them (Cayley), who of them is active; messages and
/// acknowledgements of each engaged node, `counted` of them in n + 1 places each; and sends, at least as many as are unacknowledged.
fn expected(n: u32, sends: u32) -> u32 {
    let of = |engaged: u32| {
        let trees = (engaged + 1).pow(engaged.saturating_sub(1));
        let places = (engaged + 1) * (n + 1);
        let lists = |counted: u32| choose(counted + places - 1, counted);
        let counts: u32 = (0..=sends - engaged)
            .map(|counted| lists(counted) * (sends - engaged - counted + 1))
            .sum();
        choose(n - 1, engaged) * trees * 2_u32.pow(engaged + 1) * counts
    };
    (0..n.min(sends + 1)).map(of).sum()
}

#[test]
fn every_sound_open_tree_of_one_to_three_nodes_is_reached() {
    for (n, sends, count) in [(1, 3, 40), (2, 3, 214), (3, 2, 146)] {
        let all = sound(n, sends);
        let from_start = reached(n, sends);
        assert_eq!(expected(n as u32, sends), count);
        assert_eq!((all.len(), from_start.len()), (count as usize, all.len()));
        assert!(all.iter().all(|tree| from_start.contains(tree)));
    }
}

/// Its message to itself is taken and acknowledged. (Before request Q-4 it had none to send to.)
#[test]
fn a_tree_of_one_node_that_has_sent_is_reached() {
    let mut tree = Tree::start(1, 0).expect("a start in range");
    tree.sends = 1;
    assert!(tree.is_sound());
    assert!(reached(1, 1).contains(&tree));
}

/// A node that has a message to itself in transit is engaged: it acknowledges itself.
#[test]
fn a_node_with_a_message_to_itself_is_engaged() {
    let mut found = 0;
    for tree in reached(3, 2) {
        for i in (0..3).filter(|&i| tree.in_transit[i][i] > 0) {
            let mut next = tree.clone();
            assert_eq!(next.step(Request::new(TAKE, i, i)), Ok(()));
            assert_eq!(next.engager, tree.engager);
            assert_eq!(next.acks[i], tree.acks[i] + 1);
            found += 1;
        }
    }
    assert!(found > 0);
}
