//! A store that is dropped gives its memory back, as the system counts it.
#![cfg(target_os = "linux")]

use naipselu::{Error, Lists, Maps, Sets};

/// How many pages the process has.
fn pages() -> usize {
    let counts = std::fs::read_to_string("/proc/self/statm").expect("Linux tells it");
    counts.split(' ').nth(1).and_then(|count| count.parse().ok()).expect("the second count is that of pages")
}

/// Fills a store of each kind with versions, of which some are forgotten and the rest are there at the end.
fn fill() -> Result<usize, Error> {
    let mut lists: Lists<u64> = Lists::new()?;
    let mut now = lists.from_iter(0..2_000)?;
    for index in 0..100 {
        let next = lists.set(now, index, 7)?;
        if index % 2 == 0 {
            lists.forget(now)?;
        }
        now = next;
    }
    let texts: Vec<String> = (0..200).map(|number| format!("{number} ").repeat(20)).collect();
    let texts = || texts.iter().map(String::as_str);
    let mut lines: Lists<String> = Lists::new()?;
    lines.from_iter(texts())?;
    let mut numbers: Sets<u64> = Sets::new()?;
    numbers.from_iter(0..200)?;
    let mut sets: Sets<String> = Sets::new()?;
    let (few, more) = (sets.from_iter(texts().take(100))?, sets.from_iter(texts().skip(50))?);
    sets.union(few, more)?;
    let mut squares: Maps<u64, u64> = Maps::new()?;
    squares.from_iter((0..200).map(|number| (number, number * number)))?;
    let mut names: Maps<u64, String> = Maps::new()?;
    names.from_iter((0..).zip(texts()))?;
    let mut places: Maps<String, u64> = Maps::new()?;
    places.from_iter(texts().zip(0..))?;
    let mut maps: Maps<String, String> = Maps::new()?;
    maps.from_iter(texts().zip(texts()))?;
    Ok(pages())
}

#[test]
fn a_dropped_store_gives_its_memory_back() {
    let before = pages();
    let first = fill().expect("there is memory") - before;
    for _ in 0..1_000 {
        fill().expect("there is memory");
    }
    let left = pages() - before;
    assert!(left < 2 * first, "{first} pages more while the first stores were there, and {left} more at the end");
}
