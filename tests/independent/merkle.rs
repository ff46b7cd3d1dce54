//! Merkle trees over the pairs of values of a layer.

use crate::sha256::{sha256, Digest};

const LEAF_TAG: u8 = 0x00;
const NODE_TAG: u8 = 0x01;

pub fn leaf(a: u32, c: u32) -> Digest {
    let mut message = [LEAF_TAG; 9];
    message[1..5].copy_from_slice(&a.to_le_bytes());
    message[5..].copy_from_slice(&c.to_le_bytes());
    sha256(&message)
}

pub fn node(left: &Digest, right: &Digest) -> Digest {
    let mut message = [NODE_TAG; 65];
    message[1..33].copy_from_slice(left);
    message[33..].copy_from_slice(right);
    sha256(&message)
}

/// The node above a child: an even index is the left child.
pub fn parent(child: &Digest, index: usize, sibling: &Digest) -> Digest {
    if index % 2 == 0 {
        node(child, sibling)
    } else {
        node(sibling, child)
    }
}

/// The root that a leaf and its siblings, from the leaf up, lead to.
/// Bytes after the last whole sibling do not count.
pub fn climb(leaf: &Digest, index: usize, siblings: &[u8]) -> Digest {
    let mut digest = *leaf;
    let mut index = index;
    for sibling in siblings.chunks_exact(32) {
        digest = parent(&digest, index, sibling.try_into().expect("a whole sibling"));
        index /= 2;
    }
    digest
}

/// All levels of a tree, leaves first, root last. A level whose digests repeat
/// has one period of them.
pub struct Tree {
    levels: Vec<Vec<Digest>>,
}

impl Tree {
    #[cfg(test)]
    pub fn new(leaves: Vec<Digest>) -> Tree {
        let height = leaves.len().ilog2() as usize;
        Tree::repeating(leaves, height)
    }

    /// The tree with 2^height leaves that are these again and again: above the
    /// height of one period all digests of a level are equal.
    pub fn repeating(leaves: Vec<Digest>, height: usize) -> Tree {
        assert!(leaves.len().is_power_of_two() && leaves.len() <= 1 << height);
        let mut levels = vec![leaves];
        while levels.len() <= height {
            let below = &levels[levels.len() - 1];
            let above = match below[..] {
                [every] => vec![node(&every, &every)],
                _ => below
                    .chunks_exact(2)
                    .map(|pair| node(&pair[0], &pair[1]))
                    .collect(),
            };
            levels.push(above);
        }
        Tree { levels }
    }

    pub fn root(&self) -> Digest {
        self.levels[self.levels.len() - 1][0]
    }

    /// The siblings of a leaf, from the leaf up.
    pub fn path(&self, leaf: usize) -> Vec<Digest> {
        let below_root = &self.levels[..self.levels.len() - 1];
        below_root
            .iter()
            .enumerate()
            .map(|(height, level)| level[((leaf >> height) ^ 1) % level.len()])
            .collect()
    }
}

#[cfg(test)]
mod tests {
    use super::*;

    #[test]
    fn messages_are_laid_out_by_the_document() {
        assert_eq!(leaf(1, 0xc0000000), sha256(&[0, 1, 0, 0, 0, 0, 0, 0, 0xc0]));
        let joined = [vec![1], vec![7; 32], vec![9; 32]].concat();
        assert_eq!(node(&[7; 32], &[9; 32]), sha256(&joined));
        assert_eq!(parent(&[7; 32], 4, &[9; 32]), node(&[7; 32], &[9; 32]));
        assert_eq!(parent(&[7; 32], 5, &[9; 32]), node(&[9; 32], &[7; 32]));
    }

    #[test]
    fn a_repeating_tree_is_the_tree_with_all_its_leaves() {
        for period in 0..4 {
            let leaves: Vec<Digest> = (0..1 << period).map(|m| leaf(m, m + 1)).collect();
            for height in period..6 {
                let all = leaves.repeat(1 << (height - period));
                let (short, whole) = (Tree::repeating(leaves.clone(), height), Tree::new(all));
                assert_eq!(short.root(), whole.root());
                for index in 0..1 << height {
                    assert_eq!(short.path(index), whole.path(index));
                }
            }
        }
    }

    #[test]
    fn every_path_climbs_to_the_root() {
        for height in 0..6 {
            let leaves: Vec<Digest> = (0..1 << height).map(|m| leaf(m, m * m)).collect();
            let tree = Tree::new(leaves.clone());
            for (index, start) in leaves.iter().enumerate() {
                let mut siblings = tree.path(index).concat();
                assert_eq!(siblings.len(), 32 * height);
                assert_eq!(climb(start, index, &siblings), tree.root());
                siblings.extend([1; 31]);
                assert_eq!(climb(start, index, &siblings), tree.root());
                if height > 0 {
                    assert_ne!(climb(start, index ^ 1, &siblings), tree.root());
                }
            }
        }
    }
}
