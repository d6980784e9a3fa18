//! The lines of the input.

use std::str::FromStr;

use reference::GridBuffers;

/// The room of a grid's buffer, and of a name's.
const NODES: usize = 24;

/// A name, numbers and lists.
pub struct Line<'a> {
    pub name: &'a str,
    pub numbers: Vec<i128>,
    pub lists: Vec<Text<'a>>,
}

impl<'a> Line<'a> {
    /// A line's parts; none of an empty line and a comment.
    pub fn of(text: &'a str) -> Option<Self> {
        if text.is_empty() || text.starts_with('#') {
            return None;
        }
        let mut parts = text.split(", ");
        let (name, numbers) = split(parts.next()?);
        Some(Line {
            name,
            numbers: numbers.map(number).collect(),
            lists: parts.map(Text).collect(),
        })
    }
}

/// The first word, and the others.
fn split(text: &str) -> (&str, impl Iterator<Item = &str>) {
    let mut words = text.split(' ');
    (words.next().unwrap_or_default(), words)
}

fn number<T: FromStr>(word: &str) -> T {
    word.parse()
        .unwrap_or_else(|_| panic!("not a number: {word}"))
}

/// A list as it is written.
pub struct Text<'a>(&'a str);

impl Text<'_> {
    /// The list; none where it has no number behind its length.
    pub fn parse<T: FromStr + Copy>(&self) -> Option<List<T>> {
        let (length, numbers) = split(self.0);
        let mut room: Vec<T> = numbers.map(number).collect();
        room.resize(NODES, *room.last()?);
        Some(List {
            room,
            length: number(length),
        })
    }
}

/// A buffer, and how much of it a call is lent.
pub struct List<T> {
    pub room: Vec<T>,
    length: usize,
}

impl<T> List<T> {
    pub fn lent(&self) -> &[T] {
        &self.room[..self.length]
    }

    fn lent_mut(&mut self) -> &mut [T] {
        &mut self.room[..self.length]
    }
}

/// The buffers of a grid.
pub struct Lists {
    pub mass: List<u64>,
    pub x: List<i64>,
    pub y: List<i64>,
}

impl Lists {
    pub fn lent(&mut self) -> GridBuffers<'_> {
        GridBuffers {
            mass: self.mass.lent_mut(),
            x: self.x.lent_mut(),
            y: self.y.lent_mut(),
        }
    }
}
