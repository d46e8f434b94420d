//! Tables of what there is to tell of inputs, with how often each thing was so.

use crate::report::{never_generated, print_row, Row, Stream};

/// A thing to tell, and whether it is so.
pub(crate) type Told<T> = (&'static str, fn(&T) -> bool);

/// Things to tell, each with how often it was so, by stream.
pub(crate) struct Table<T: 'static> {
    told: &'static [Told<T>],
    rows: Vec<Row>,
}

impl<T: 'static> Table<T> {
    pub(crate) fn of(told: &'static [Told<T>]) -> Table<T> {
        Table { told, rows: vec![Row::default(); told.len()] }
    }

    /// Counts all that is so of this.
    pub(crate) fn count(&mut self, stream: Stream, of: &T) {
        for (row, (_, holds)) in self.rows.iter_mut().zip(self.told) {
            row[stream as usize] += u64::from(holds(of));
        }
    }

    fn named(&self) -> impl Iterator<Item = (&Row, &'static str)> {
        self.rows.iter().zip(self.told.iter().map(|(name, _)| *name))
    }

    /// What was so of no generated input.
    pub(crate) fn missing(&self) -> Vec<String> {
        let never = self.named().filter(|(row, _)| never_generated(row));
        never.map(|(_, name)| name.to_string()).collect()
    }

    pub(crate) fn print(&self) {
        self.named().for_each(|(row, name)| print_row(name, *row));
    }
}
