//! Lent memory with guard elements before and behind it, which a call must leave as they were.
use crate::outcome::Difference;

const GUARDS: usize = 8;

/// A slice to lend, in the middle of guard elements.
pub struct Guarded<T> {
    name: &'static str,
    guard: T,
    all: Vec<T>,
}

impl<T: Copy + PartialEq> Guarded<T> {
    /// Contents between guard elements of a value.
    pub fn new(name: &'static str, contents: &[T], guard: T) -> Guarded<T> {
        let mut all = Vec::with_capacity(contents.len() + 2 * GUARDS);
        all.extend_from_slice(&[guard; GUARDS]);
        all.extend_from_slice(contents);
        all.extend_from_slice(&[guard; GUARDS]);
        Guarded { name, guard, all }
    }

    /// The number of elements lent.
    pub fn len(&self) -> usize {
        self.all.len() - 2 * GUARDS
    }

    /// Whether nothing is lent.
    pub fn is_empty(&self) -> bool {
        self.len() == 0
    }

    /// Where the lent elements begin, to read.
    pub fn begin(&self) -> *const T {
        self.all[GUARDS..].as_ptr()
    }

    /// Where the lent elements begin, to write.
    pub fn begin_mut(&mut self) -> *mut T {
        self.all[GUARDS..].as_mut_ptr()
    }

    /// The lent elements as they are, once every guard element is found as it was.
    pub fn taken_back(self) -> Result<Vec<T>, Difference> {
        let end = GUARDS + self.len();
        let whole = self.all[..GUARDS].iter().chain(&self.all[end..]).all(|&one| one == self.guard);
        if !whole {
            return Err(Difference::new(format!("guards of {}", self.name), "changed", "as they were"));
        }
        Ok(self.all[GUARDS..end].to_vec())
    }

    /// Nothing where the lent elements and the guard elements are as they were.
    pub fn as_before(self, before: &[T]) -> Result<(), Difference> {
        let name = self.name;
        if self.taken_back()? == before {
            return Ok(());
        }
        Err(Difference::new(format!("{name}, lent to be read"), "changed", "as it was"))
    }
}
