//! The smallest tree and frame of which something still holds.

use crate::tree::{Record, Tree};
use crate::values::network;

/// Frames of so many bytes past the network header's start and more are never short.
pub const ENOUGH: usize = 64;

pub struct Case {
    pub link: u8,
    pub tree: Tree,
    pub frame: Vec<u8>,
}

/// Makes it smaller for as long as it still shows.
pub fn shrink(mut case: Case, shows: &dyn Fn(&Case) -> bool) -> Case {
    loop {
        let steps = [smaller_tree, simpler_leaf, simpler_frame];
        let Some(next) = steps.iter().find_map(|step| step(&case, shows)) else {
            return case;
        };
        case = next;
    }
}

fn first(
    case: &Case,
    trees: impl IntoIterator<Item = Tree>,
    shows: &dyn Fn(&Case) -> bool,
) -> Option<Case> {
    let with = |tree| Case {
        link: case.link,
        tree,
        frame: case.frame.clone(),
    };
    trees.into_iter().map(with).find(|c| shows(c))
}

fn smaller_tree(case: &Case, shows: &dyn Fn(&Case) -> bool) -> Option<Case> {
    first(case, case.tree.smaller(), shows)
}

/// A condition in its plain word, or one that stands before it in this list.
fn simpler_leaf(case: &Case, shows: &dyn Fn(&Case) -> bool) -> Option<Case> {
    let count = case.tree.clone().leaves().len();
    let plain = (0..count).filter_map(|at| {
        let mut tree = case.tree.clone();
        let leaf = tree.leaves().swap_remove(at);
        let by_bytes = std::mem::replace(&mut leaf.by_bytes, false);
        by_bytes.then_some(tree)
    });
    let simpler = (0..count).flat_map(|at| {
        let before = simplest().into_iter();
        before.filter_map(move |r| with_record(&case.tree, at, r))
    });
    first(case, plain.chain(simpler), shows)
}

/// Conditions without values: Ip, Ip6, Tcp, Udp, ether multicast.
fn simplest() -> Vec<Record> {
    let protocol = |p| {
        let mut r = crate::tree::record(10);
        r[2] = p;
        r
    };
    let multicast = crate::tree::record(19);
    vec![
        protocol(1),
        protocol(2),
        protocol(5),
        protocol(6),
        multicast,
    ]
}

/// The tree with another condition, unless that is one of the simplest already.
fn with_record(tree: &Tree, at: usize, record: Record) -> Option<Tree> {
    let mut tree = tree.clone();
    let leaf = tree.leaves().swap_remove(at);
    if simplest().contains(&leaf.record) {
        return None;
    }
    leaf.record = record;
    Some(tree)
}

/// Cut at n + 64, or a byte zero.
fn simpler_frame(case: &Case, shows: &dyn Fn(&Case) -> bool) -> Option<Case> {
    let enough = network(case.link) + ENOUGH;
    let cut = (case.frame.len() > enough).then(|| case.frame[..enough].to_vec());
    let zeroed = (0..case.frame.len()).filter_map(|at| {
        let mut frame = case.frame.clone();
        let byte = std::mem::replace(&mut frame[at], 0);
        (byte != 0).then_some(frame)
    });
    let with = |frame| Case {
        link: case.link,
        tree: case.tree.clone(),
        frame,
    };
    cut.into_iter().chain(zeroed).map(with).find(|c| shows(c))
}
