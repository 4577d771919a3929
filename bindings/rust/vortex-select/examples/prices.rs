use vortex_select::{filter, take, Mask, OutOfBounds};

fn main() -> Result<(), OutOfBounds> {
    let prices = [250u32, 90, 1200, 40];
    let is_low = Mask::from_bools(&prices.map(|price| price < 1000));
    println!("{:?}", filter(&prices, &is_low)); // [250, 90, 40]
    println!("{:?}", take(&prices, &is_low.positions())?); // the same
    println!("{}", take(&prices, &[0, 4]).unwrap_err()); // index 4 at place 1, but 4 items
    Ok(())
}
