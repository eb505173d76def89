// A label written out as document 01 lays it out: kind, then the fields in TbrReach's order, unused ones 0; the distance beside them.
fn words_of(label: &Option<TbrReach>) -> ([u32; 8], f64) {
    match label {
        None => ([0; 8], 0.0),
        Some(TbrReach::Access { stop_idx, arrival_s, walk_duration, walk_distance }) => ([1, *stop_idx, *arrival_s, *walk_duration, 0, 0, 0, 0], *walk_distance),
        Some(TbrReach::Transit { arrival_s, trip_idx, board_stop, board_off, alight_off, prev_round, time_shift_s }) => {
            ([2, *arrival_s, *trip_idx, *board_stop, *board_off, *alight_off, *prev_round as u32, *time_shift_s as u32], 0.0)
        }
        Some(TbrReach::Walk { arrival_s, from_stop, to_stop, duration_s, distance_m, prev_round }) => {
            ([3, *arrival_s, *from_stop, *to_stop, *duration_s, *prev_round as u32, 0, 0], *distance_m)
        }
    }
}

// A TbrReach made from plain numbers, stored in a label table as the Rust stores it, read back, and written out.
pub fn label_words(kind: u32, a: [u32; 7], distance: f64) -> ([u32; 8], u64) {
    let label = match kind {
        1 => Some(TbrReach::Access { stop_idx: a[0], arrival_s: a[1], walk_duration: a[2], walk_distance: distance }),
        2 => Some(TbrReach::Transit {
            arrival_s: a[0], trip_idx: a[1], board_stop: a[2], board_off: a[3], alight_off: a[4], prev_round: a[5] as u16, time_shift_s: a[6] as i32,
        }),
        3 => Some(TbrReach::Walk { arrival_s: a[0], from_stop: a[1], to_stop: a[2], duration_s: a[3], distance_m: distance, prev_round: a[4] as u16 }),
        _ => None,
    };
    let mut table: Vec<Vec<Option<TbrReach>>> = vec![vec![None; 2]; 1];
    table[0][1] = label;
    let (words, distance) = words_of(&table[0][1]);
    (words, distance.to_bits())
}

// A label table as the Rust has it, for timing a store and a read.
pub struct LabelTable(Vec<Vec<Option<TbrReach>>>);

impl LabelTable {
    pub fn new(stops: usize) -> Self {
        LabelTable(vec![vec![None; 13]; stops])
    }
    #[inline(never)]
    pub fn store_transit(&mut self, stop: usize, row: usize, a: [u32; 7]) {
        self.0[stop][row] = Some(TbrReach::Transit {
            arrival_s: a[0], trip_idx: a[1], board_stop: a[2], board_off: a[3], alight_off: a[4], prev_round: a[5] as u16, time_shift_s: a[6] as i32,
        });
    }
    #[inline(never)]
    pub fn read(&self, stop: usize, row: usize) -> Option<TbrReach> {
        self.0[stop][row].clone()
    }
    pub fn store_and_read(&mut self, stop: usize, row: usize, a: [u32; 7]) -> u32 {
        self.store_transit(stop, row, a);
        match std::hint::black_box(self.read(stop, row)) {
            Some(TbrReach::Transit { arrival_s, .. }) => arrival_s,
            _ => 0,
        }
    }
}
