//! An arena in a file. The file is the arena: addresses are offsets in it, and its first eight bytes, where no frame can stand, hold the
//! next free address as a little-endian u64. A file is replaced whole or not at all.

use crate::decode::{BASE, Frame};
use crate::stop::Stop;
use cresttrestle::{Addr, Arena, Refusal, View};
use std::fs::{self, File};
use std::io::{self, Write};
use std::path::{Path, PathBuf};

/// The length of a new arena, as order 13's arenas have it.
pub const NEW: usize = 49_152;
/// The largest arena that is made or read: far above any page, and below what a slip of the finger would ask for.
const MOST: u64 = 1 << 30;

pub struct ArenaFile {
    path: PathBuf,
    bytes: Vec<u8>,
}

fn io_error(path: &Path, e: io::Error) -> Stop {
    Stop::Io(format!("{}: {e}", path.display()))
}

impl ArenaFile {
    pub fn open(path: &str) -> Result<Self, Stop> {
        let path = PathBuf::from(path);
        let len = fs::metadata(&path).map_err(|e| io_error(&path, e))?.len();
        if len > MOST {
            return Err(Stop::Io(format!(
                "{}: {len} bytes are no arena of ours, at most {MOST} are",
                path.display()
            )));
        }
        let bytes = fs::read(&path).map_err(|e| io_error(&path, e))?;
        let file = ArenaFile { path, bytes };
        file.next()?;
        Ok(file)
    }

    /// The arena of a file, or a new one where there is no file; nothing is written yet. `size` makes it at least so long.
    pub fn open_or_new(path: &str, size: Option<usize>) -> Result<Self, Stop> {
        let mut file = match ArenaFile::open(path) {
            Err(Stop::Io(_)) if !Path::new(path).exists() => {
                ArenaFile { path: PathBuf::from(path), bytes: Vec::new() }
            }
            opened => opened?,
        };
        let fresh = file.bytes.is_empty();
        let size = size.unwrap_or(if fresh { NEW } else { 0 });
        if size as u64 > MOST {
            return Err(Stop::Usage(format!("--size {size} is over {MOST}")));
        }
        if size > file.bytes.len() {
            file.bytes.resize(size, 0);
        }
        if fresh {
            file.bytes.resize(file.bytes.len().max(8), 0);
            file.mark(Addr::FIRST);
        }
        Ok(file)
    }

    pub fn bytes(&self) -> &[u8] {
        &self.bytes
    }

    pub fn view(&self) -> View<'_> {
        View::new(&self.bytes)
    }

    /// The mark: the next free address, refused where it cannot be one.
    pub fn next(&self) -> Result<Addr, Stop> {
        let refused = |words: String| Err(Stop::Refused(Refusal::BadArena, words));
        let Some(mark) = self.bytes.first_chunk().copied().map(u64::from_le_bytes) else {
            return refused(format!(
                "{} has no room for its mark of eight bytes",
                self.path.display()
            ));
        };
        if mark < 8 || !mark.is_multiple_of(8) || mark > self.bytes.len() as u64 {
            return refused(format!(
                "the mark of {} is {mark}, its length {}",
                self.path.display(),
                self.bytes.len()
            ));
        }
        Ok(Addr::new(mark))
    }

    fn mark(&mut self, next: Addr) {
        self.bytes[..8].copy_from_slice(&next.get().to_le_bytes());
    }

    /// Lets the library write, then replaces the file. Where it refuses, the file is not touched.
    pub fn write<T>(
        &mut self,
        call: impl FnOnce(&mut Arena) -> Result<T, Refusal>,
    ) -> Result<T, Stop> {
        let next = self.next()?;
        let (len, mut arena) = (self.bytes.len(), Arena::resume(&mut self.bytes, next));
        let answer = call(&mut arena).map_err(|why| match why {
            Refusal::NoRoom => Stop::Refused(
                why,
                format!(
                    "the arena has {len} bytes, {} of them used; --size makes it longer",
                    next.get()
                ),
            ),
            why => why.into(),
        })?;
        let next = arena.next();
        self.mark(next);
        self.save()?;
        Ok(answer)
    }

    /// Writes a file beside the old one and puts it in the old one's place only when all of it is on the disk. A run that is killed before
    /// leaves the old file as it was, and at most a `.tent-..` file that nobody reads.
    fn save(&self) -> Result<(), Stop> {
        // a link to the file stays a link
        let path = fs::canonicalize(&self.path).unwrap_or_else(|_| self.path.clone());
        let folder = path.parent().filter(|p| !p.as_os_str().is_empty()).unwrap_or(Path::new("."));
        let Some(name) = path.file_name() else {
            return Err(Stop::Usage(format!("{} is no file's name", path.display())));
        };
        let beside =
            folder.join(format!(".tent-{}-{}", std::process::id(), name.to_string_lossy()));
        let written = File::create(&beside).and_then(|mut file| {
            if let Ok(old) = fs::metadata(&path) {
                file.set_permissions(old.permissions())?;
            }
            file.write_all(&self.bytes)?;
            file.sync_all()?;
            fs::rename(&beside, &path)?;
            File::open(folder)?.sync_all()
        });
        written.map_err(|e| {
            let _ = fs::remove_file(&beside);
            io_error(&self.path, e)
        })
    }

    /// The frames from 8 up to the mark; an error where one is not as laid out or ends above the mark, since none behind it can be found.
    pub fn frames(&self) -> Result<Vec<Frame>, Stop> {
        let (next, mut at, mut out) = (self.next()?.get(), Addr::FIRST.get(), Vec::new());
        while at < next {
            let used = &self.bytes[..next as usize];
            let bad = |f: crate::decode::Fault| Stop::Refused(Refusal::BadFrame, f.to_string());
            let frame = Frame::read(used, at).map_err(bad)?;
            if let Some(first) = frame.faults(used).into_iter().next() {
                return Err(bad(first));
            }
            at = frame.end() as u64;
            out.push(frame);
        }
        Ok(out)
    }

    /// The page that is meant: the given one, else the last leaf or index page of the arena.
    pub fn page(&self, given: Option<u64>) -> Result<Addr, Stop> {
        self.last(given, "leaf or index page", "--page", |f| f.kind == BASE && !f.is_history())
    }

    /// The frame that is meant: the given one, else the last of its sort.
    pub fn last(
        &self,
        given: Option<u64>,
        sort: &str,
        option: &str,
        is: impl Fn(&Frame) -> bool,
    ) -> Result<Addr, Stop> {
        if let Some(addr) = given {
            return Ok(Addr::new(addr));
        }
        let frames = self.frames().map_err(|stop| match stop {
            Stop::Refused(why, words) => {
                Stop::Refused(why, format!("{words}; name the frame with {option}"))
            }
            stop => stop,
        })?;
        let found = frames.into_iter().rev().find(|f| is(f)).map(|f| Addr::new(f.addr as u64));
        found.ok_or_else(|| {
            Stop::Refused(Refusal::BadFrame, format!("{} holds no {sort}", self.path.display()))
        })
    }
}
