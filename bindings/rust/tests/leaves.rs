//! The leaves: cell sets, labels, clock readings.
use savoiky::{service_second, CellBitSet, Label, Labels, Refusal, Settings, Tally};

const S: Settings = Settings::DEFAULT;

#[test]
fn cell_sets() -> Result<(), Refusal> {
    let t = &mut Tally::new();
    let set = CellBitSet::new(t, 0, S, 65)?;
    assert!(set.is_empty(t, 0, S)?);
    let set = set.set_bit(t, 0, S, 127)?.set_bit(t, 0, S, 128)?;
    assert!(
        set.get_bit(t, 0, S, 127)?
            && !set.get_bit(t, 0, S, 128)?
            && !set.get_bit(t, 0, S, u32::MAX)?
            && !set.is_empty(t, 0, S)?
    );
    let other = CellBitSet::new(t, 0, S, 8)?.set_bit(t, 0, S, 3)?;
    assert!(!set.intersects(t, 0, S, &other)?);
    let both = other.union_with(t, 0, S, &set)?;
    assert!(both.get_bit(t, 0, S, 3)? && both.get_bit(t, 0, S, 127)? && both.intersects(t, 0, S, &set)?);
    let wide = other.ensure_sized(t, 0, S, 512)?.set_bit(t, 0, S, 511)?;
    assert!(wide.get_bit(t, 0, S, 3)? && wide.get_bit(t, 0, S, 511)?);
    Ok(())
}

#[test]
fn labels() {
    let t = &mut Tally::new();
    let mut labels = Labels::new(t, 0, S, 2).unwrap();
    let stored = [
        Label::Access { stop_idx: 1, arrival_s: 2, walk_duration: 3, walk_distance: 4.5 },
        Label::Transit { arrival_s: 1, trip_idx: 2, board_stop: 1, board_off: 4, alight_off: 5, prev_round: 6, time_shift_s: -7 },
        Label::Walk { arrival_s: u32::MAX, from_stop: 0, to_stop: 1, duration_s: 4, distance_m: f64::INFINITY, prev_round: 5 },
    ];
    for (row, label) in stored.into_iter().enumerate() {
        labels.store(t, 0, S, 1, row as u32, label).unwrap();
    }
    for (row, label) in stored.into_iter().enumerate() {
        assert_eq!(labels.load(t, 0, S, 1, row as u32), Ok(label));
        assert_eq!(labels.load(t, 0, S, 0, row as u32), Ok(Label::Empty));
    }
    labels.store(t, 0, S, 1, 2, Label::Empty).unwrap();
    assert_eq!(labels.load(t, 0, S, 1, 2), Ok(Label::Empty));
    assert_eq!(labels, {
        let mut same = Labels::new(t, 0, S, 2).unwrap();
        same.store(t, 0, S, 1, 0, stored[0]).unwrap();
        same.store(t, 0, S, 1, 1, stored[1]).unwrap();
        same
    });
}

#[test]
fn clock() {
    let t = &mut Tally::new();
    assert_eq!(service_second(t, 0, S, 25, 10, 0), Ok(90_600));
    assert_eq!(service_second(t, 0, S, 47, 59, 59), Ok(172_799));
}
