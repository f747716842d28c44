//! What is lent to be written: a table's words or a buffer's bytes, with rubbish in them, between guards.

pub struct Guarded<T> {
    all: Vec<T>,
    guard: T,
    guards: usize,
}

impl<T: Copy + PartialEq> Guarded<T> {
    /// So many places, each with the rubbish that belongs there, and so many guards on each side; without guards it is a block of just that size.
    pub fn new(places: usize, rubbish: impl Fn(u32) -> T, guard: T, guards: usize) -> Guarded<T> {
        let mut all = vec![guard; places + 2 * guards];
        for (i, place) in all[guards..guards + places].iter_mut().enumerate() {
            *place = rubbish(i as u32);
        }
        Guarded { all, guard, guards }
    }

    pub fn lent(&mut self) -> &mut [T] {
        let end = self.all.len() - self.guards;
        &mut self.all[self.guards..end]
    }

    /// What was lent, where all guards stand as they were.
    pub fn taken(self) -> Option<Vec<T>> {
        let (front, rest) = self.all.split_at(self.guards);
        let (lent, back) = rest.split_at(rest.len() - self.guards);
        (front.iter().chain(back).all(|&place| place == self.guard)).then(|| lent.to_vec())
    }
}
