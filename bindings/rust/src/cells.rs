//! Cell sets, the patterns of the arc flags.
use crate::refusal::{checked, holds, Refusal};
use crate::settings::Settings;
use crate::tally::Tally;
use crate::{calls, sys};

/// A set of cells, a value: at most 512, in whole groups of 64. Its calls are refused by 14 alone where nothing else is said; the set
/// that was asked stays what it was.
///
/// ```
/// use savoiky::{CellBitSet, Settings, Tally};
/// let (tally, settings) = (&mut Tally::new(), Settings::DEFAULT);
/// let mut set = CellBitSet::new(tally, 0, settings, 65)?;
/// for cell in [127, 128] {
///     set = set.set_bit(tally, 0, settings, cell)?;
/// }
/// assert!(set.get_bit(tally, 0, settings, 127)?); // two groups of 64 are reserved
/// assert!(!set.get_bit(tally, 0, settings, 128)?); // past them a cell is dropped
/// assert_eq!(tally.answered(0), 5);
/// # Ok::<(), savoiky::Refusal>(())
/// ```
#[derive(Clone, Copy, PartialEq, Debug)]
pub struct CellBitSet(sys::CellBitSet);

impl CellBitSet {
    /// An empty set for so many cells. Refused by 1 (more than 512) and 14.
    pub fn new(tally: &mut Tally, screen: u32, settings: Settings, num_cells: u32) -> Result<CellBitSet, Refusal> {
        made(calls::cell_bitset_new(tally, screen, settings, num_cells))
    }

    /// The set with room for at least so many cells. Refused by 1 (more than 512) and 14.
    pub fn ensure_sized(self, tally: &mut Tally, screen: u32, settings: Settings, num_cells: u32) -> Result<CellBitSet, Refusal> {
        made(calls::cell_bitset_ensure_sized(tally, screen, settings, self.0, num_cells))
    }

    /// The set with this cell; one past the reserved groups is dropped.
    pub fn set_bit(self, tally: &mut Tally, screen: u32, settings: Settings, cell: u32) -> Result<CellBitSet, Refusal> {
        made(calls::cell_bitset_set_bit(tally, screen, settings, self.0, cell))
    }

    /// Is this cell in the set?
    pub fn get_bit(&self, tally: &mut Tally, screen: u32, settings: Settings, cell: u32) -> Result<bool, Refusal> {
        holds(calls::cell_bitset_get_bit(tally, screen, settings, self.0, cell))
    }

    /// Have the sets a cell in common?
    pub fn intersects(&self, tally: &mut Tally, screen: u32, settings: Settings, other: &CellBitSet) -> Result<bool, Refusal> {
        holds(calls::cell_bitset_intersects(tally, screen, settings, self.0, other.0))
    }

    /// The set with the other's cells.
    pub fn union_with(
        self,
        tally: &mut Tally,
        screen: u32,
        settings: Settings,
        other: &CellBitSet,
    ) -> Result<CellBitSet, Refusal> {
        made(calls::cell_bitset_union_with(tally, screen, settings, self.0, other.0))
    }

    /// Does the set hold no cell?
    pub fn is_empty(&self, tally: &mut Tally, screen: u32, settings: Settings) -> Result<bool, Refusal> {
        holds(calls::cell_bitset_is_empty(tally, screen, settings, self.0))
    }

    /// The set as a pattern's 64 bytes.
    pub(crate) fn bytes(&self) -> &[u8; 64] {
        &self.0.bytes
    }
}

fn made(a: sys::CellSetAnswer) -> Result<CellBitSet, Refusal> {
    checked(a.code).map(|()| CellBitSet(a.set))
}

#[cfg(test)]
mod tests {
    use super::*;

    /// What a refused call hands back, which the methods drop.
    #[test]
    fn a_refused_set_is_as_it_came() {
        let (t, good, bad) = (&mut Tally::new(), Settings::DEFAULT, Settings { line_scan: 0, ..Settings::DEFAULT });
        let set = CellBitSet::new(t, 0, good, 64).unwrap().set_bit(t, 0, good, 7).unwrap().0;
        let other = CellBitSet::new(t, 0, good, 128).unwrap().set_bit(t, 0, good, 70).unwrap().0;
        let none = CellBitSet::new(t, 0, good, 0).unwrap().0;
        for (screen, settings, code) in [(0, bad, 14), (64, good, 15), (64, bad, 15)] {
            for answer in [
                calls::cell_bitset_ensure_sized(t, screen, settings, set, 128),
                calls::cell_bitset_set_bit(t, screen, settings, set, 8),
                calls::cell_bitset_union_with(t, screen, settings, set, other),
            ] {
                assert_eq!((answer.code, answer.set), (code, set));
            }
            assert_eq!(calls::cell_bitset_new(t, screen, settings, 64), sys::CellSetAnswer { code, set: none });
            let refused = sys::Answer { code, value: 0 };
            assert_eq!(calls::cell_bitset_get_bit(t, screen, settings, set, 7), refused);
            assert_eq!(calls::cell_bitset_intersects(t, screen, settings, set, set), refused);
            assert_eq!(calls::cell_bitset_is_empty(t, screen, settings, none), refused);
        }
        for (screen, code) in [(0, 1), (64, 15)] {
            assert_eq!(calls::cell_bitset_ensure_sized(t, screen, bad, set, 513), sys::CellSetAnswer { code, set });
            assert_eq!(calls::cell_bitset_new(t, screen, bad, 513), sys::CellSetAnswer { code, set: none });
        }
        assert_eq!((t.answered(0), t.refused(0), t.total()), (5, 9, 14));
    }
}
