//! What a run is given and changes, as the lists of include/taleviqa.h.

pub const STATE_WORDS: usize = 34;
pub const FRESH: [u32; STATE_WORDS] = [
    0x4000, 0, 0x4000, 0, 0x4000, 0, 0, 0, 0, 64, 0, 0, 0, 0, 0, 0, 1, 1, 1, 1, 0, 0, 0, 0, 0, 68,
    0, 64, 0, 0, 1, 0, 0, 0,
];

#[derive(Clone, PartialEq, Eq, Debug, Default)]
pub struct World {
    pub state: Vec<u32>,
    pub sheet: Vec<i32>,
    pub controls: Vec<i32>,
    pub unscaled: [Vec<i32>; 2],
    pub original: [Vec<i32>; 2],
    pub current: [Vec<i32>; 2],
    pub flags: Vec<u8>,
    pub contours: Vec<u16>,
    pub twilight_original: [Vec<i32>; 2],
    pub twilight: [Vec<i32>; 2],
    pub twilight_flags: Vec<u8>,
    pub answer: [u64; 4],
}

impl World {
    /// What a run may have changed is put back, in place: nothing is allocated.
    pub fn restore(&mut self, from: &World) {
        self.state.copy_from_slice(&from.state);
        for axis in 0..2 {
            self.current[axis].copy_from_slice(&from.current[axis]);
            self.twilight_original[axis].copy_from_slice(&from.twilight_original[axis]);
            self.twilight[axis].copy_from_slice(&from.twilight[axis]);
        }
        self.flags.copy_from_slice(&from.flags);
        self.twilight_flags.copy_from_slice(&from.twilight_flags);
    }

    pub fn points(&self) -> usize {
        self.flags.len()
    }

    pub fn bytes(&self) -> usize {
        self.points() * 25 + self.twilight_flags.len() * 17 + self.sheet.len() * 4
    }
}
