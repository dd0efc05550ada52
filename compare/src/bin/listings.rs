//! `listings`: writes the inputs of the program `listing_many` and what the model says that it prints of them, into
//! the folder of that crate.
use std::path::Path;
use std::{fs, io};

use compare::make::listing::{inputs, stored};
use compare::model::Model;

fn main() -> io::Result<()> {
    let folder = Path::new(env!("CARGO_MANIFEST_DIR")).join("../crates/listing_many");
    let inputs = inputs();
    let mut model = Model::default();
    let printed: Vec<u8> = inputs.iter().flat_map(|input| model.listing(input, None)).collect();
    fs::write(folder.join("stdin"), stored(&inputs))?;
    fs::write(folder.join("stdout"), printed)
}
