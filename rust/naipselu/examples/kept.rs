//! The program of the page.

use naipselu::{Error, Lists, Maps};

fn main() -> Result<(), Error> {
    let mut lists: Lists<u64> = Lists::new()?;
    let kept = lists.from_iter([1, 2, 3])?;
    let now = lists.set(kept, 0, 7)?;
    println!("kept {:?}, now {:?}", lists.to_vec(kept)?, lists.to_vec(now)?);

    let mut ages: Maps<String, u64> = Maps::new()?;
    let young = ages.from_iter([("Ada", 36), ("Bob", 41)])?;
    let older = ages.insert(young, "Ada", 37)?;
    println!("kept {:?}, now {:?}", ages.sorted(young)?, ages.sorted(older)?);
    Ok(())
}
