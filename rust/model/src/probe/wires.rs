//! The levels of a link's wires.

/// Which wires are high: a transition on a wire takes it high, or back to low.
#[derive(Clone, Copy, Debug, PartialEq, Eq, Hash, PartialOrd, Ord)]
pub struct Wires {
    high: [bool; 5],
}

impl Wires {
    /// "the links assume that they start low"
    pub const LOW: Wires = Wires { high: [false; 5] };

    /// Every combination of levels of five wires.
    pub fn all() -> impl Iterator<Item = Wires> {
        (0..32_u8).map(|bits| Wires {
            high: std::array::from_fn(|wire| bits >> wire & 1 == 1),
        })
    }

    /// The levels behind these transitions. A number that is no wire changes none.
    pub fn after(mut self, transitions: &[u8]) -> Wires {
        for wire in transitions {
            if let Some(high) = self.high.get_mut(usize::from(*wire)) {
                *high = !*high;
            }
        }
        self
    }

    /// The wires that are high, by number.
    pub fn high(self) -> Vec<u8> {
        let numbered = (0..).zip(self.high);
        let high = numbered.filter(|(_, is_high)| *is_high);
        high.map(|(wire, _)| wire).collect()
    }
}
