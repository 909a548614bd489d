//! The least times of calls, over several rounds.

use crate::clock::Clock;
use crate::peer::{Network, Peer};
use crate::sample::Sample;

/// How many times each sheet is taken; the least time counts.
pub const ROUNDS: usize = 7;

/// The least microseconds for each sheet, for a call that must say yes.
pub fn least(
    clock: &Clock,
    samples: &mut [Sample],
    call: impl Fn(&mut Sample) -> bool,
) -> Vec<f64> {
    let mut times = vec![f64::INFINITY; samples.len()];
    for _ in 0..ROUNDS {
        for (sample, least) in samples.iter_mut().zip(&mut times) {
            let (time, answer) = clock.time(|| call(sample));
            assert!(answer, "a sheet gets another answer");
            *least = least.min(time);
        }
    }
    times
}

/// The least microseconds for drawing each sheet, by the library and by the peer in both forms.
#[derive(Default)]
pub struct Drawn {
    pub library: Vec<f64>,
    pub peers: [Vec<f64>; 2],
}

impl Drawn {
    /// All draw each sheet in turn, so that they meet the same load. Their totals must be equal.
    ///
    /// Each draws the sheet before once more first, untimed: then the caches are warm, and the branches
    /// are not learnt.
    pub fn in_turn(clock: &Clock, peers: &mut [Peer; 2], samples: &mut [Sample]) -> Drawn {
        let networks = samples.iter().map(|sample| Network::new(&sample.sheet()));
        let networks: Vec<Network> = networks.collect();
        let never = vec![f64::INFINITY; samples.len()];
        let mut drawn = Drawn {
            library: never.clone(),
            peers: [never.clone(), never],
        };
        for _ in 0..ROUNDS {
            for i in 0..samples.len() {
                samples[i.saturating_sub(1)].draw();
                let (time, total) = clock.time(|| samples[i].draw());
                drawn.library[i] = drawn.library[i].min(time);
                for (peer, times) in peers.iter_mut().zip(&mut drawn.peers) {
                    let (time, bound) = peer.solve(&networks[i]);
                    assert_eq!(total.map(i64::from), Some(bound), "the peer's total");
                    times[i] = times[i].min(time);
                }
            }
        }
        drawn
    }

    /// The library alone draws each sheet.
    pub fn alone(clock: &Clock, samples: &mut [Sample]) -> Drawn {
        Drawn {
            library: least(clock, samples, |sample| sample.draw().is_some()),
            peers: Default::default(),
        }
    }

    /// The library's time divided by that of a peer, for each sheet.
    pub fn ratios(&self, peer: &[f64]) -> Vec<f64> {
        let pairs = self.library.iter().zip(peer);
        pairs.map(|(library, peer)| library / peer).collect()
    }

    /// Takes the times of more sheets.
    pub fn extend(&mut self, more: Drawn) {
        self.library.extend(more.library);
        for (times, more) in self.peers.iter_mut().zip(more.peers) {
            times.extend(more);
        }
    }
}
