//! Spanning trees whose nodes have potentials.

/// A spanning tree; its root is the last node, the ground, with potential 0.
pub struct Tree {
    nodes: Vec<Node>,
}

/// How a node hangs in a tree.
#[derive(Clone, Copy)]
pub struct Hold {
    pub parent: usize,
    /// The arc to the parent.
    pub link: usize,
    /// How much greater the potential is than that of the parent.
    pub rise: i64,
}

/// A node of a tree.
#[derive(Clone)]
struct Node {
    hold: Hold,
    potential: i64,
    depth: usize,
    children: Vec<usize>,
}

impl Tree {
    /// A tree in which no node hangs yet.
    pub fn new(ground: usize) -> Tree {
        let hold = Hold {
            parent: ground,
            link: 0,
            rise: 0,
        };
        let node = Node {
            hold,
            potential: 0,
            depth: 0,
            children: Vec::new(),
        };
        Tree {
            nodes: vec![node; ground + 1],
        }
    }

    /// The node on which a node hangs.
    pub fn parent(&self, node: usize) -> usize {
        self.nodes[node].hold.parent
    }

    /// The arc on which a node hangs.
    pub fn link(&self, node: usize) -> usize {
        self.nodes[node].hold.link
    }

    /// The potential of a node.
    pub fn potential(&self, node: usize) -> i64 {
        self.nodes[node].potential
    }

    /// Hangs a node on another one.
    pub fn hang(&mut self, node: usize, hold: Hold) {
        self.nodes[node].hold = hold;
        self.nodes[hold.parent].children.push(node);
        self.refresh(node);
    }

    /// The nodes from each of two nodes up to where their paths meet, without that one.
    pub fn paths(&self, one: usize, other: usize) -> (Vec<usize>, Vec<usize>) {
        let (mut from_one, mut from_other) = (Vec::new(), Vec::new());
        let (mut one, mut other) = (one, other);
        while one != other {
            if self.nodes[one].depth >= self.nodes[other].depth {
                from_one.push(one);
                one = self.parent(one);
            } else {
                from_other.push(other);
                other = self.parent(other);
            }
        }
        (from_one, from_other)
    }

    /// Cuts a node off its parent, and hangs what has come off by another of its nodes.
    ///
    /// `hung` is `cut` or a node below it; between the two every node then hangs on its former child.
    pub fn exchange(&mut self, hung: usize, cut: usize, hold: Hold) {
        let (mut node, mut hold) = (hung, hold);
        loop {
            let former = self.nodes[node].hold;
            let children = &mut self.nodes[former.parent].children;
            children.retain(|&child| child != node);
            self.nodes[node].hold = hold;
            self.nodes[hold.parent].children.push(node);
            if node == cut {
                break;
            }
            hold = Hold {
                parent: node,
                link: former.link,
                rise: -former.rise,
            };
            node = former.parent;
        }
        self.refresh(hung);
    }

    /// Computes depth and potential of a node and of all below it.
    fn refresh(&mut self, node: usize) {
        let mut left = vec![node];
        while let Some(node) = left.pop() {
            let hold = self.nodes[node].hold;
            let parent = &self.nodes[hold.parent];
            let (depth, potential) = (parent.depth + 1, parent.potential + hold.rise);
            let node = &mut self.nodes[node];
            node.depth = depth;
            node.potential = potential;
            left.extend(&node.children);
        }
    }
}
