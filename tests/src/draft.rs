//! Sheets in their parts, from which the test cases are made.

use second::drawing::Sheet;
use second::number;
use second::sheet::SIGNATURE;

/// The separation of two neighbours in a layer.
#[derive(Clone, Debug)]
pub struct Separation {
    pub minimum: u16,
    pub maximum: u16,
}

/// An edge; layers and positions count from 1, as in the sheet.
#[derive(Clone, Debug)]
pub struct Edge {
    pub layer: u16,
    pub upper: u16,
    pub lower: u16,
    pub kind: u16,
}

/// A sheet in its parts; nothing makes them keep the limits.
#[derive(Clone, Debug)]
pub struct Draft {
    pub width: u16,
    /// The separations of each layer: one fewer than the layer has nodes.
    pub layers: Vec<Vec<Separation>>,
    pub edges: Vec<Edge>,
}

impl Draft {
    /// A sheet without edges; every separation has minimum 1 and no maximum.
    pub fn new(width: u16, node_counts: &[u16]) -> Draft {
        let apart = Separation {
            minimum: 1,
            maximum: 0,
        };
        let layer = |&count: &u16| vec![apart.clone(); usize::from(count) - 1];
        Draft {
            width,
            layers: node_counts.iter().map(layer).collect(),
            edges: Vec::new(),
        }
    }

    /// Sets the separation behind the node at a position of a layer, both from 1.
    pub fn separation(mut self, layer: usize, left: usize, minimum: u16, maximum: u16) -> Draft {
        self.layers[layer - 1][left - 1] = Separation { minimum, maximum };
        self
    }

    /// Adds an edge.
    pub fn edge(mut self, layer: u16, upper: u16, lower: u16, kind: u16) -> Draft {
        self.edges.push(Edge {
            layer,
            upper,
            lower,
            kind,
        });
        self
    }

    /// The number list of the sheet.
    pub fn numbers(&self) -> Vec<u16> {
        let mut numbers = vec![self.width, self.layers.len() as u16];
        for layer in &self.layers {
            numbers.push(layer.len() as u16 + 1);
            for separation in layer {
                numbers.extend([separation.minimum, separation.maximum]);
            }
        }
        numbers.push(self.edges.len() as u16);
        for edge in &self.edges {
            numbers.extend([edge.layer, edge.upper, edge.lower, edge.kind]);
        }
        numbers
    }

    /// The sheet as its number list gives it; its numbers must be within their limits.
    pub fn sheet(&self) -> Sheet {
        Sheet::from_numbers(&self.numbers())
    }

    /// The bytes of the sheet.
    pub fn bytes(&self) -> Vec<u8> {
        encode(&self.numbers())
    }
}

/// The signature of a sheet and the numbers behind it, whatever they are.
pub fn encode(numbers: &[u16]) -> Vec<u8> {
    encode_behind(SIGNATURE, numbers)
}

/// A signature and the numbers behind it, whatever they are.
pub fn encode_behind(signature: [u8; 3], numbers: &[u16]) -> Vec<u8> {
    let mut bytes = signature.to_vec();
    for &n in numbers {
        match number::form(n.into()) {
            Some(form) => bytes.extend(form),
            None => panic!("{n} has no form of two bytes"),
        }
    }
    bytes
}
