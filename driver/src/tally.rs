//! What was compared, counted.

#[derive(Default)]
pub struct Tally {
    pub layouts: u64,
    pub records: u64,
    pub malformed: u64,
    pub rows: u64,
    pub numbers_worked: u64,
    pub ramps: u64,
    pub mixed: u64,
    pub lists: u64,
    pub calls: u64,
    pub differences: u64,
    /// How often each number from 0 to 11 was answered.
    pub numbers: [u64; 12],
}

impl Tally {
    pub fn saw(&mut self, number: u32) {
        if let Some(n) = self.numbers.get_mut(number as usize) {
            *n += 1;
        }
    }

    pub fn details(&self) -> String {
        let numbers: Vec<String> = self
            .numbers
            .iter()
            .enumerate()
            .map(|(n, c)| format!("{n}: {c}"))
            .collect();
        format!(
            "of the layouts {} were opened and {} made by hand ({} malformed); numbers answered: {}",
            self.layouts,
            self.records,
            self.malformed,
            numbers.join(", ")
        )
    }

    pub fn summary(&self) -> String {
        format!(
            "rows {}, layouts {}, numbers {}, ramps {}, mixed gains {}, lists {} of {} calls: {} differences",
            self.rows,
            self.layouts + self.records,
            self.numbers_worked,
            self.ramps,
            self.mixed,
            self.lists,
            self.calls,
            self.differences
        )
    }
}
