//! What a call leaves behind: its refusal's number, its answers, and every slice lent to it.
//!
//! The library's outcome and the model's are held side by side, element by element.
use std::fmt;

/// The elements of one answer or slice. A binary64 figure is kept by its bits, as a `u64`.
#[derive(Clone, Debug, PartialEq)]
pub enum Values {
    Bytes(Vec<u8>),
    Words(Vec<u32>),
    Longs(Vec<u64>),
}

impl Values {
    /// The number of elements.
    pub fn len(&self) -> usize {
        match self {
            Values::Bytes(all) => all.len(),
            Values::Words(all) => all.len(),
            Values::Longs(all) => all.len(),
        }
    }

    /// Whether there is no element.
    pub fn is_empty(&self) -> bool {
        self.len() == 0
    }

    /// The element at a place, none past the end.
    pub fn at(&self, place: usize) -> Option<u64> {
        match self {
            Values::Bytes(all) => all.get(place).map(|&one| u64::from(one)),
            Values::Words(all) => all.get(place).map(|&one| u64::from(one)),
            Values::Longs(all) => all.get(place).copied(),
        }
    }
}

/// A call's refusal number (0 where it is accepted) and its named answers and lent slices as they are then.
#[derive(Clone, Debug, PartialEq)]
pub struct Outcome {
    pub refusal: u32,
    pub fields: Vec<(&'static str, Values)>,
}

impl Outcome {
    /// The field of a name that every outcome of this call has.
    pub fn field(&self, name: &str) -> &Values {
        let found = self.fields.iter().find(|field| field.0 == name);
        &found.unwrap_or_else(|| panic!("no field {name}")).1
    }

    /// The words of a field.
    pub fn words(&self, name: &str) -> &[u32] {
        match self.field(name) {
            Values::Words(all) => all,
            _ => panic!("{name} holds no words"),
        }
    }

    /// The longs of a field.
    pub fn longs(&self, name: &str) -> &[u64] {
        match self.field(name) {
            Values::Longs(all) => all,
            _ => panic!("{name} holds no longs"),
        }
    }

    /// The bytes of a field.
    pub fn bytes(&self, name: &str) -> &[u8] {
        match self.field(name) {
            Values::Bytes(all) => all,
            _ => panic!("{name} holds no bytes"),
        }
    }

    /// The first difference from what is due, if there is one.
    pub fn against(&self, due: &Outcome) -> Result<(), Difference> {
        if self.refusal != due.refusal {
            return Err(Difference::new("refusal", self.refusal, due.refusal));
        }
        assert_eq!(self.fields.len(), due.fields.len(), "both outcomes have the call's fields");
        for ((name, seen), (due_name, due)) in self.fields.iter().zip(&due.fields) {
            assert_eq!(name, due_name, "both outcomes have the call's fields");
            same_values(name, seen, due)?;
        }
        Ok(())
    }
}

/// The first place at which two fields of one name differ, if there is one.
pub fn same_values(name: &str, seen: &Values, due: &Values) -> Result<(), Difference> {
    if seen == due {
        return Ok(());
    }
    let longer = seen.len().max(due.len());
    let place = (0..longer).find(|&place| seen.at(place) != due.at(place)).unwrap_or(longer);
    let told = |values: &Values| values.at(place).map_or("nothing".to_string(), |one| one.to_string());
    Err(Difference::new(format!("{name}[{place}]"), told(seen), told(due)))
}

/// A field at which something else was seen than is due.
#[derive(Debug)]
pub struct Difference {
    pub field: String,
    pub seen: String,
    pub due: String,
}

impl Difference {
    /// A difference in a field, with both values.
    pub fn new(field: impl ToString, seen: impl ToString, due: impl ToString) -> Difference {
        Difference { field: field.to_string(), seen: seen.to_string(), due: due.to_string() }
    }

    /// The difference at a field, or none where the two values are equal.
    pub fn unless_equal<T: PartialEq + fmt::Debug>(field: &str, seen: T, due: T) -> Result<(), Difference> {
        if seen == due {
            return Ok(());
        }
        Err(Difference::new(field, format!("{seen:?}"), format!("{due:?}")))
    }
}

impl fmt::Display for Difference {
    fn fmt(&self, out: &mut fmt::Formatter<'_>) -> fmt::Result {
        write!(out, "{}: seen {}, due {}", self.field, self.seen, self.due)
    }
}
