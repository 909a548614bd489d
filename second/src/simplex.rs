//! Circulations of least cost by the network simplex method.
//!
//! Flows are kept with a spanning tree; outside it every flow is at a limit. An arc whose reduced
//! cost has the wrong sign enters the tree, flow is sent around the cycle that it closes, and an arc
//! that is at its limit then leaves. From every node some flow can always be sent along the tree to
//! the ground (a strongly feasible tree, after Cunningham), so the method ends.

use crate::network::{Arc, UNLIMITED};
use crate::tree::{Hold, Tree};

/// An arc in one direction, with a flow from 0 on.
struct OneWay {
    /// The arc of the network, and whether this one runs along it (1) or against it (-1).
    arc: usize,
    sign: i64,
    tail: usize,
    head: usize,
    cost: i64,
    /// None where the flow has no limit.
    greatest: Option<i64>,
    flow: i64,
}

impl OneWay {
    /// How much more flow can run away from a node, which is an end; None where there is no limit.
    fn room(&self, from: usize) -> Option<i64> {
        if from == self.tail {
            self.greatest.map(|greatest| greatest - self.flow)
        } else {
            Some(self.flow)
        }
    }

    /// How an end hangs on the other one by this arc, which has this index.
    fn hold(&self, link: usize, hung: usize) -> Hold {
        let (parent, rise) = if hung == self.head {
            (self.tail, self.cost)
        } else {
            (self.head, -self.cost)
        };
        Hold { parent, link, rise }
    }

    /// Sends an amount away from a node, which is an end.
    fn send(&mut self, from: usize, amount: i64) {
        self.flow += if from == self.tail { amount } else { -amount };
    }
}

/// The flows and their tree.
struct Simplex {
    arcs: Vec<OneWay>,
    tree: Tree,
}

/// An arc that enters the tree, and the direction in which flow is sent along it.
struct Entering {
    arc: usize,
    from: usize,
    to: usize,
}

/// Flows of least cost; none where the cost has no limit, that is where the sheet has no drawing.
pub fn least_flows(ground: usize, network: &[Arc]) -> Option<Vec<i64>> {
    let mut simplex = Simplex::new(ground, network);
    while let Some(entering) = simplex.entering() {
        simplex.pivot(&entering)?;
    }
    let mut flows = vec![0; network.len()];
    for arc in &simplex.arcs {
        flows[arc.arc] += arc.sign * arc.flow;
    }
    Some(flows)
}

impl Simplex {
    /// No flow; every node hangs on its left neighbour, and the first of a layer on the ground.
    fn new(ground: usize, network: &[Arc]) -> Simplex {
        let mut arcs = Vec::new();
        let mut links = vec![0; ground];
        for (i, arc) in network.iter().enumerate() {
            let is_one_way = arc.least == 0;
            let is_to_left = arc.head == ground || arc.head + 1 == arc.tail;
            if is_one_way && is_to_left && arc.tail != ground {
                links[arc.tail] = arcs.len();
            }
            arcs.push(one_way(i, 1, (arc.tail, arc.head), arc.cost, arc.greatest));
            if !is_one_way {
                arcs.push(one_way(i, -1, (arc.head, arc.tail), -arc.cost, -arc.least));
            }
        }
        let mut tree = Tree::new(ground);
        for (node, &link) in links.iter().enumerate() {
            tree.hang(node, arcs[link].hold(link, node));
        }
        Simplex { arcs, tree }
    }

    /// The arc whose reduced cost is wrong by most, if any is.
    fn entering(&self) -> Option<Entering> {
        let mut most = 0;
        let mut found = None;
        for (i, arc) in self.arcs.iter().enumerate() {
            let reduced = arc.cost + self.tree.potential(arc.tail) - self.tree.potential(arc.head);
            let (from, to) = match reduced {
                ..0 => (arc.tail, arc.head),
                _ => (arc.head, arc.tail),
            };
            if reduced.abs() > most && arc.room(from) != Some(0) {
                most = reduced.abs();
                found = Some(Entering { arc: i, from, to });
            }
        }
        found
    }

    /// Sends all flow it can around the cycle of an entering arc, and exchanges it for one at its limit.
    ///
    /// The last such arc on the cycle leaves, beginning where its two paths up the tree meet; this
    /// keeps the tree strongly feasible. There is nothing where no arc has a limit.
    fn pivot(&mut self, entering: &Entering) -> Option<()> {
        let (down, up) = self.tree.paths(entering.from, entering.to);
        let link = |node: usize| &self.arcs[self.tree.link(node)];
        let room_down = |node: usize| link(node).room(self.tree.parent(node));
        let room_up = |node: usize| link(node).room(node);
        let room = self.arcs[entering.arc].room(entering.from);
        let rooms = down.iter().map(|&node| room_down(node));
        let rooms = rooms.chain(up.iter().map(|&node| room_up(node)));
        let amount = rooms.chain([room]).flatten().min()?;
        let is_full = |room: Option<i64>| room == Some(amount);
        let last_up = up.iter().rfind(|&&node| is_full(room_up(node)));
        let last_down = down.iter().find(|&&node| is_full(room_down(node)));
        let leaving = match (last_up, last_down) {
            (Some(&node), _) => Some((entering.to, node)),
            (None, Some(&node)) if !is_full(room) => Some((entering.from, node)),
            _ => None,
        };
        self.send(entering, &down, &up, amount);
        if let Some((hung, cut)) = leaving {
            let hold = self.arcs[entering.arc].hold(entering.arc, hung);
            self.tree.exchange(hung, cut, hold);
        }
        Some(())
    }

    /// Sends an amount down one path, along the entering arc and up the other path.
    fn send(&mut self, entering: &Entering, down: &[usize], up: &[usize], amount: i64) {
        for &node in down {
            self.arcs[self.tree.link(node)].send(self.tree.parent(node), amount);
        }
        self.arcs[entering.arc].send(entering.from, amount);
        for &node in up {
            self.arcs[self.tree.link(node)].send(node, amount);
        }
    }
}

/// An arc in one direction without flow.
fn one_way(arc: usize, sign: i64, ends: (usize, usize), cost: i64, greatest: i64) -> OneWay {
    OneWay {
        arc,
        sign,
        tail: ends.0,
        head: ends.1,
        cost,
        greatest: Some(greatest).filter(|&greatest| greatest < UNLIMITED),
        flow: 0,
    }
}
