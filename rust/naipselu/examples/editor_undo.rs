//! A line editor that keeps every version of a list of lines, and undoes and redoes. Commands are read line by line: `add TEXT`,
//! `set INDEX TEXT`, `insert INDEX TEXT`, `remove INDEX`, `undo`, `redo`.

use naipselu::{Error, Lists, Version};
use std::io::{self, BufRead};

struct Editor {
    lists: Lists<String>,
    past: Vec<Version>,
    future: Vec<Version>,
}

impl Editor {
    fn new() -> Result<Editor, Error> {
        let mut lists: Lists<String> = Lists::new()?;
        let past = vec![lists.empty()?];
        Ok(Editor { lists, past, future: vec![] })
    }

    fn now(&self) -> Version {
        *self.past.last().expect("the first version is never taken off")
    }

    fn run(&mut self, line: &str) -> Result<(), Error> {
        let (word, rest) = line.split_once(' ').unwrap_or((line, ""));
        let (index, text) = rest.split_once(' ').unwrap_or((rest, ""));
        let index = index.parse().unwrap_or(usize::MAX);
        let made = match word {
            "add" => self.lists.push(self.now(), rest)?,
            "set" => self.lists.set(self.now(), index, text)?,
            "insert" => self.lists.insert(self.now(), index, text)?,
            "remove" => self.lists.remove(self.now(), index)?,
            "undo" if self.past.len() > 1 => {
                self.future.extend(self.past.pop());
                return Ok(());
            }
            "redo" => {
                self.past.extend(self.future.pop());
                return Ok(());
            }
            _ => return Ok(()),
        };
        self.past.push(made);
        // What was undone can't come back now, so its rows are given up.
        self.future.drain(..).try_for_each(|version| self.lists.forget(version))
    }
}

fn main() -> Result<(), Error> {
    let mut editor = Editor::new()?;
    for line in io::stdin().lock().lines().map_while(Result::ok) {
        match editor.run(&line) {
            Ok(()) => println!("{:?}", editor.lists.to_vec(editor.now())?),
            Err(error) => println!("refused: {error}"),
        }
    }
    Ok(())
}
