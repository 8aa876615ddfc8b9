//! The shell over `im_rc`, as a careful user would write it.
//! Lines are `Rc<str>` in a `Vector`, which stands behind an `Rc` since a HAMT
//! node has room for 32 values inline; names a `HashMap` (or, with the feature
//! `ord`, an `OrdMap`), stars a `HashSet`, undo and redo a `Vector` of states.
//! Documents of `save` are plain JSON of the content; they keep no sharing.

use std::borrow::Borrow;
use std::collections::hash_map::DefaultHasher;
use std::fmt;
use std::hash::BuildHasherDefault;
use std::io::{self, Write};
use std::rc::Rc;

use im_rc::Vector;
use serde::de::{Deserialize, Deserializer, Visitor};
use serde::{Serialize, Serializer};
use shell_common::{Done, Refusal, Space, LENGTH_MOST, LINE_MOST};

/// Std's hasher with fixed keys, so that counts of instructions repeat.
type Hasher = BuildHasherDefault<DefaultHasher>;

#[cfg(not(feature = "ord"))]
type Map<V> = im_rc::HashMap<Line, V, Hasher>;
#[cfg(feature = "ord")]
type Map<V> = im_rc::OrdMap<Line, V>;
type Set = im_rc::HashSet<Line, Hasher>;

#[derive(Clone, PartialEq, Eq, PartialOrd, Ord, Hash)]
struct Line(Rc<str>);

impl From<&str> for Line {
    fn from(text: &str) -> Line {
        Line(Rc::from(text))
    }
}

impl Borrow<str> for Line {
    fn borrow(&self) -> &str {
        &self.0
    }
}

impl Serialize for Line {
    fn serialize<S: Serializer>(&self, to: S) -> Result<S::Ok, S::Error> {
        to.serialize_str(&self.0)
    }
}

impl<'de> Deserialize<'de> for Line {
    fn deserialize<D: Deserializer<'de>>(from: D) -> Result<Line, D::Error> {
        struct Text;
        impl Visitor<'_> for Text {
            type Value = Line;
            fn expecting(&self, f: &mut fmt::Formatter<'_>) -> fmt::Result {
                f.write_str("a text cell")
            }
            fn visit_str<E: serde::de::Error>(self, text: &str) -> Result<Line, E> {
                if text.len() > LINE_MOST || text.contains('\n') {
                    return Err(E::custom("no cell"));
                }
                Ok(Line::from(text))
            }
        }
        from.deserialize_str(Text)
    }
}

type Lines = Vector<Line>;

#[derive(Clone, Default, serde::Serialize, serde::Deserialize)]
struct State {
    names: Map<Rc<Lines>>,
    stars: Set,
}

#[derive(Default, serde::Serialize, serde::Deserialize)]
struct Im {
    now: State,
    versions: Map<State>,
    undo: Vector<State>,
    redo: Vector<State>,
    #[serde(skip)]
    base: Option<State>,
}

fn same_lines(a: &Rc<Lines>, b: &Rc<Lines>) -> bool {
    Rc::ptr_eq(a, b) || a.ptr_eq(b) || a == b
}

fn same_state(a: &State, b: &State) -> bool {
    (a.stars.ptr_eq(&b.stars) || a.stars == b.stars)
        && (a.names.ptr_eq(&b.names)
            || a.names.len() == b.names.len()
                && a.names.iter().all(|(name, lines)| {
                    b.names.get(name).is_some_and(|other| same_lines(lines, other))
                }))
}

impl Im {
    fn lines(&self, b: &str) -> Result<&Rc<Lines>, Refusal> {
        self.now.names.get(b).ok_or(Refusal::Absent)
    }

    /// Puts a state at the end of undo, from which the oldest one goes where it has as many as it can.
    fn keep(&mut self, state: State) {
        if self.undo.len() == LENGTH_MOST {
            self.undo.pop_front();
        }
        self.undo.push_back(state);
    }

    /// Keeps the old state of an edit and gives the one to write.
    fn edit(&mut self) -> &mut State {
        if self.base.is_none() {
            self.keep(self.now.clone());
            if !self.redo.is_empty() {
                self.redo = Vector::new();
            }
        }
        &mut self.now
    }

    fn edit_lines(&mut self, b: &str) -> &mut Lines {
        Rc::make_mut(self.edit().names.get_mut(b).expect("the name was looked up"))
    }

    fn version(&self, v: &str) -> Result<&State, Refusal> {
        self.versions.get(v).ok_or(Refusal::Absent)
    }

    fn outside(&self) -> Done {
        if self.base.is_some() { Err(Refusal::Batch) } else { Ok(()) }
    }
}

fn sorted(mut items: Vec<&str>) -> Vec<&str> {
    items.sort_unstable();
    items
}

impl Space for Im {
    fn new_buffer(&mut self, b: &str) -> Done {
        if self.now.names.contains_key(b) {
            return Err(Refusal::Exists);
        }
        self.edit().names.insert(Line::from(b), Rc::new(Vector::new()));
        Ok(())
    }

    fn add(&mut self, b: &str, text: &str) -> Done {
        if self.lines(b)?.len() == LENGTH_MOST {
            return Err(Refusal::Limit);
        }
        self.edit_lines(b).push_back(Line::from(text));
        Ok(())
    }

    fn set(&mut self, b: &str, i: usize, text: &str) -> Done {
        if i >= self.lines(b)?.len() {
            return Err(Refusal::Range);
        }
        self.edit_lines(b).set(i, Line::from(text));
        Ok(())
    }

    fn put(&mut self, b: &str, i: usize, text: &str) -> Done {
        let length = self.lines(b)?.len();
        if i > length {
            return Err(Refusal::Range);
        }
        if length == LENGTH_MOST {
            return Err(Refusal::Limit);
        }
        self.edit_lines(b).insert(i, Line::from(text));
        Ok(())
    }

    fn del(&mut self, b: &str, i: usize, j: usize) -> Done {
        if !(i <= j && j <= self.lines(b)?.len()) {
            return Err(Refusal::Range);
        }
        let lines = self.edit_lines(b);
        if j - i == 1 {
            lines.remove(i);
        } else {
            lines.slice(i..j);
        }
        Ok(())
    }

    fn cat(&mut self, b: &str, c: &str) -> Done {
        let left = self.lines(b)?.len();
        let other = (**self.lines(c)?).clone();
        if left + other.len() > LENGTH_MOST {
            return Err(Refusal::Limit);
        }
        self.edit_lines(b).append(other);
        Ok(())
    }

    fn cut(&mut self, b: &str, i: usize, j: usize, c: &str) -> Done {
        if !(i <= j && j <= self.lines(b)?.len()) {
            return Err(Refusal::Range);
        }
        let part = self.edit_lines(b).slice(i..j);
        self.now.names.insert(Line::from(c), Rc::new(part));
        Ok(())
    }

    fn copy(&mut self, b: &str, c: &str) -> Done {
        let lines = self.lines(b)?.clone();
        self.edit().names.insert(Line::from(c), lines);
        Ok(())
    }

    fn drop_buffer(&mut self, b: &str) -> Done {
        self.lines(b)?;
        self.edit().names.remove(b);
        Ok(())
    }

    fn star(&mut self, n: &str) -> Done {
        if self.now.stars.contains(n) {
            return Err(Refusal::Exists);
        }
        self.edit().stars.insert(Line::from(n));
        Ok(())
    }

    fn unstar(&mut self, n: &str) -> Done {
        if !self.now.stars.contains(n) {
            return Err(Refusal::Absent);
        }
        self.edit().stars.remove(n);
        Ok(())
    }

    fn take_lines(&mut self, b: &str, lines: std::str::Split<'_, char>) {
        let lines: Lines = lines.map(Line::from).collect();
        self.edit().names.insert(Line::from(b), Rc::new(lines));
    }

    fn mark(&mut self, v: &str) -> Done {
        self.outside()?;
        if self.versions.contains_key(v) {
            return Err(Refusal::Exists);
        }
        self.versions.insert(Line::from(v), self.now.clone());
        Ok(())
    }

    fn unmark(&mut self, v: &str) -> Done {
        self.outside()?;
        self.versions.remove(v).map(drop).ok_or(Refusal::Absent)
    }

    fn back(&mut self, v: &str) -> Done {
        self.outside()?;
        let version = self.versions.get(v).ok_or(Refusal::Absent)?.clone();
        *self.edit() = version;
        Ok(())
    }

    fn star_merge(&mut self, v: &str) -> Done {
        let other = self.version(v)?.stars.clone();
        let state = self.edit();
        state.stars = std::mem::take(&mut state.stars).union(other);
        Ok(())
    }

    fn star_both(&mut self, v: &str) -> Done {
        let other = self.version(v)?.stars.clone();
        let state = self.edit();
        state.stars = std::mem::take(&mut state.stars).intersection(other);
        Ok(())
    }

    fn star_less(&mut self, v: &str) -> Done {
        let other = self.version(v)?.stars.clone();
        let state = self.edit();
        state.stars = std::mem::take(&mut state.stars).relative_complement(other);
        Ok(())
    }

    fn merge(&mut self, v: &str) -> Done {
        let other = self.version(v)?.names.clone();
        let state = self.edit();
        state.names = std::mem::take(&mut state.names).union(other);
        Ok(())
    }

    fn undo(&mut self) -> Done {
        self.outside()?;
        if self.undo.is_empty() {
            return Err(Refusal::Empty);
        }
        if self.redo.len() == LENGTH_MOST {
            return Err(Refusal::Limit);
        }
        let before = self.undo.pop_back().expect("not empty");
        self.redo.push_back(std::mem::replace(&mut self.now, before));
        Ok(())
    }

    fn redo(&mut self) -> Done {
        self.outside()?;
        if self.redo.is_empty() {
            return Err(Refusal::Empty);
        }
        let after = self.redo.pop_back().expect("not empty");
        let before = std::mem::replace(&mut self.now, after);
        self.keep(before);
        Ok(())
    }

    fn begin(&mut self) -> Done {
        self.outside()?;
        self.base = Some(self.now.clone());
        Ok(())
    }

    fn end(&mut self) -> Done {
        let base = self.base.take().ok_or(Refusal::Batch)?;
        self.keep(base);
        self.redo = Vector::new();
        Ok(())
    }

    fn abort(&mut self) -> Done {
        self.now = self.base.take().ok_or(Refusal::Batch)?;
        Ok(())
    }

    fn in_batch(&self) -> bool {
        self.base.is_some()
    }

    fn get(&self, b: &str, i: usize) -> Result<&str, Refusal> {
        self.lines(b)?.get(i).map(|line| &*line.0).ok_or(Refusal::Range)
    }

    fn len(&self, b: &str) -> Result<usize, Refusal> {
        Ok(self.lines(b)?.len())
    }

    fn show<W: Write>(&self, b: &str, i: usize, j: usize, before: &str, out: &mut W) -> io::Result<Done> {
        let lines = match self.lines(b) {
            Ok(lines) => lines,
            Err(refusal) => return Ok(Err(refusal)),
        };
        if !(i <= j && j <= lines.len()) {
            return Ok(Err(Refusal::Range));
        }
        // Focus::narrow panics at an empty range.
        if i == j {
            return Ok(Ok(()));
        }
        for line in lines.focus().narrow(i..j) {
            out.write_all(before.as_bytes())?;
            out.write_all(line.0.as_bytes())?;
            out.write_all(b"\n")?;
        }
        Ok(Ok(()))
    }

    fn size(&self, b: &str) -> Result<usize, Refusal> {
        Ok(self.lines(b)?.iter().map(|line| line.0.len() + 1).sum())
    }

    fn list(&self) -> Vec<(&str, usize)> {
        let mut items: Vec<(&str, usize)> =
            self.now.names.iter().map(|(name, lines)| (&*name.0, lines.len())).collect();
        items.sort_unstable();
        items
    }

    fn stars(&self) -> Vec<&str> {
        sorted(self.now.stars.iter().map(|name| &*name.0).collect())
    }

    fn marks(&self) -> Vec<&str> {
        sorted(self.versions.keys().map(|name| &*name.0).collect())
    }

    fn same(&self, b: &str, c: &str) -> Result<bool, Refusal> {
        Ok(same_lines(self.lines(b)?, self.lines(c)?))
    }

    fn eqv(&self, v: &str, w: &str) -> Result<bool, Refusal> {
        let v = self.versions.get(v).ok_or(Refusal::Absent)?;
        let w = self.versions.get(w).ok_or(Refusal::Absent)?;
        Ok(same_state(v, w))
    }

    fn save<W: Write>(&self, out: W) -> Done {
        serde_json::to_writer(out, self).map_err(|_| Refusal::Fault)
    }

    fn load(&mut self, bytes: &[u8]) -> Done {
        *self = serde_json::from_slice(bytes).map_err(|e| {
            Refusal::Damaged(if e.is_data() { "form" } else { "json" })
        })?;
        Ok(())
    }
}

fn main() {
    std::process::exit(shell_common::run(Im::default()));
}
