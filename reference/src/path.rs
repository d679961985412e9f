//! Paths and the names in them.

pub const PATH: usize = 64;
/// The most names in a path, and the most that a directory may lie deep.
pub const NAMES: usize = 8;
pub const NAME: usize = 14;

/// A well-formed path: the names in it, none of them for the root.
#[derive(Clone, Copy, Debug)]
pub struct Path<'a> {
    names: [&'a [u8]; NAMES],
    count: usize,
}

impl<'a> Path<'a> {
    /// The path written in these bytes, if it is well formed.
    pub fn parse(bytes: &'a [u8]) -> Option<Path<'a>> {
        if bytes.len() > PATH || !bytes.starts_with(b"/") {
            return None;
        }
        let mut path = Path {
            names: [&[]; NAMES],
            count: 0,
        };
        for name in names(bytes) {
            path.push(name)?;
        }
        let trailing_slash = path.count > 0 && bytes.ends_with(b"/");
        (!trailing_slash).then_some(path)
    }

    fn push(&mut self, name: &'a [u8]) -> Option<()> {
        if !is_name(name) {
            return None;
        }
        *self.names.get_mut(self.count)? = name;
        self.count += 1;
        Some(())
    }

    pub fn names(&self) -> &[&'a [u8]] {
        &self.names[..self.count]
    }

    /// The path as a name in a parent directory; the root is none.
    pub fn target(self) -> Option<Target<'a>> {
        let last = self.count.checked_sub(1)?;
        Some(Target {
            parent: Path {
                count: last,
                ..self
            },
            name: self.names[last],
        })
    }
}

/// A path below the root: its last name, and the path before it.
#[derive(Clone, Copy, Debug)]
pub struct Target<'a> {
    pub parent: Path<'a>,
    pub name: &'a [u8],
}

impl<'a> Target<'a> {
    /// The path written in these bytes, if it is well formed and not the root.
    pub fn parse(bytes: &'a [u8]) -> Option<Target<'a>> {
        Path::parse(bytes)?.target()
    }

    /// The number of the last name, counted from 1.
    pub fn last(&self) -> usize {
        self.parent.count + 1
    }
}

/// What stands between the slashes of a path; its names, if it is well formed.
pub fn names(path: &[u8]) -> impl Iterator<Item = &[u8]> {
    path.split(|&byte| byte == b'/')
        .filter(|name| !name.is_empty())
}

/// Whether these bytes are a valid name.
pub fn is_name(bytes: &[u8]) -> bool {
    (1..=NAME).contains(&bytes.len())
        && bytes.iter().all(|&byte| byte != 0 && byte != b'/')
        && bytes != b"."
        && bytes != b".."
}
