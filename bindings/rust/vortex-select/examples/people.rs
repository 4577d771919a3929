//! Keeps the people who are in, takes every third of them, and prints their names. Then it asks for
//! a row that doesn't exist. Needs the feature `arrow`. Prints
//!
//! ```text
//! Some([Some("ann"), None])
//! step 0: OutOfBounds: index 9, but 2 rows
//! ```
use vortex_select::arrow::{select, Column, Error, Step};

fn main() -> Result<(), Error> {
    let names = Column::texts(&[Some("ann"), Some("bo"), Some("cy"), Some("dee"), None]);
    let ages = Column::numbers(&[31, 25, 40, 19, 58].map(Some));
    let mut is_in = Column::bools(&[true, false, true, true, true].map(Some));
    let fields = vec![("name", names), ("age", ages), ("is_in", is_in.share()?)];
    let mut kept = select(&mut Column::structs(5, fields), &[Step::filter_by(&is_in)?])?;
    let thirds: Vec<u64> = (0..kept.len() as u64).step_by(3).collect();
    let mut taken = select(&mut kept, &[Step::take(&thirds)])?;
    println!("{:?}", taken.field("name")?.expect("a field of this name").to_texts());
    if let Err(why) = select(&mut taken, &[Step::take(&[9])]) {
        println!("{why}");
    }
    Ok(())
}
