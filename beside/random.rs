// The limit of times, the unknown trip, and random numbers.
pub const LIMIT: u32 = 1_048_575;
pub const UNKNOWN: u32 = u32::MAX;

// Numbers from a seed (splitmix64).
pub struct Random(pub u64);

impl Random {
    pub fn next(&mut self) -> u64 {
        self.0 = self.0.wrapping_add(0x9E37_79B9_7F4A_7C15);
        let mut z = self.0;
        z = (z ^ (z >> 30)).wrapping_mul(0xBF58_476D_1CE4_E5B9);
        z = (z ^ (z >> 27)).wrapping_mul(0x94D0_49BB_1331_11EB);
        z ^ (z >> 31)
    }
    pub fn below(&mut self, n: u32) -> u32 {
        (self.next() % n as u64) as u32
    }
    // any u32, the limits and small numbers often
    pub fn any(&mut self) -> u32 {
        match self.below(8) {
            0 => self.next() as u32,
            1 => u32::MAX - self.below(3),
            2 => LIMIT + 2 - self.below(4),
            _ => self.below(70),
        }
    }
    // a time, now and then past the limit
    pub fn time(&mut self) -> u32 {
        match self.below(10) {
            0 => LIMIT + 1 - self.below(3),
            1 | 2 => self.below(LIMIT + 1),
            3 if self.below(20) == 0 => self.next() as u32,
            _ => self.below(2000),
        }
    }
    // the bits of a signed size, now and then past the limit
    pub fn signed(&mut self) -> u32 {
        let v = self.time() as i64;
        (if self.below(2) == 0 { v } else { -v }) as u32
    }
    pub fn signed_inside(&mut self) -> u32 {
        let v = match self.below(6) {
            0 => LIMIT - self.below(2),
            1 => self.below(LIMIT + 1),
            2 => 21600 + self.below(3) - 1,
            _ => self.below(900),
        } as i64;
        (if self.below(2) == 0 { v } else { -v }) as u32
    }
    // a distance: any bits, among them NaNs with a payload, -0.0 and the infinities
    pub fn distance(&mut self) -> f64 {
        f64::from_bits(match self.below(8) {
            0 => 0x8000_0000_0000_0000,
            1 => 0x7FF0_0000_0000_0000 | (self.next() & 0x800F_FFFF_FFFF_FFFF),
            2 => 0x7FF8_0000_0000_0000 | (self.next() & 0x8007_FFFF_FFFF_FFFF),
            3 => (self.below(5000) as f64).to_bits(),
            _ => self.next(),
        })
    }
    // a stop's number, most often below the count; now and then the last one, the count itself, one past it, or any
    pub fn stop_number(&mut self, stops: u32) -> u32 {
        match self.below(20) {
            0 => stops.saturating_sub(1),
            1 => stops,
            2 => stops.saturating_add(1),
            3 => self.any(),
            _ => self.below(stops.max(1)),
        }
    }
    // yes in so many of a hundred
    pub fn yes(&mut self, percent: u32) -> bool {
        self.below(100) < percent
    }
}
