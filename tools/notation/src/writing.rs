//! Writes the three files of a finding: all of them, or none.

use crate::folder::{Lines, FILES};
use crate::Finding;
use std::fs::{self, File, OpenOptions, TryLockError};
use std::io::{self, ErrorKind, Write};
use std::os::unix::fs::{chown, MetadataExt};
use std::path::{Path, PathBuf};
use std::thread::sleep;
use std::time::{Duration, Instant};

/// How long another program is waited for that writes in the folder too.
const PATIENCE: Duration = Duration::from_secs(10);

/// Two programs that write in one folder would mix their files: the second waits until the first is done. Where there is
/// no text that can be read there is nothing to write, and nothing to wait for; a pipe would never open.
pub fn lock(folder: &Path) -> Result<Option<File>, Lines> {
    let path = folder.join("finding.txt");
    let is_file = fs::metadata(&path).is_ok_and(|data| data.is_file());
    let text = if is_file { File::open(&path).ok() } else { None };
    let Some(text) = text else { return Ok(None) };
    let start = Instant::now();
    loop {
        match text.try_lock() {
            Ok(()) => return Ok(Some(text)),
            Err(TryLockError::WouldBlock) if start.elapsed() < PATIENCE => sleep(Duration::from_millis(20)),
            Err(TryLockError::WouldBlock) => {
                return Err(told(&path, "another program has a lock on it"));
            }
            // A place without locks has nobody who waits for one.
            Err(TryLockError::Error(_)) => return Ok(Some(text)),
        }
    }
}

fn told(path: &Path, what: &str) -> Lines {
    vec![format!("{}: {what}; nothing is written", path.display())]
}

/// Writes each slice beside its file first, and puts them in their places only once all three are written. Should one
/// not go to its place, those that have gone are put back. What a link leads to is written, with the rights it had.
pub fn write(folder: &Path, finding: &Finding) -> Result<(), Lines> {
    let mut places: Vec<Place> = Vec::new();
    for (file, slice) in FILES.iter().zip(&finding.slices) {
        let path = folder.join(file);
        let place = place(&path, &slice.bytes).map_err(|what| told(&path, &what))?;
        let text = fs::canonicalize(folder.join("finding.txt")).ok();
        if places.iter().any(|other| other.path == place.path) || text.as_ref() == Some(&place.path) {
            return Err(told(&path, "it leads to another file of the finding"));
        }
        places.push(place);
    }
    let result = places.iter().try_for_each(Place::prepare).and_then(|()| replace(&places));
    places.iter().for_each(Place::tidy);
    result.map_err(|(path, error)| told(&path, &error.to_string()))
}

/// Where the bytes of a slice go.
struct Place<'b> {
    path: PathBuf,
    exists: bool,
    bytes: &'b [u8],
}

/// The place that a path, or the link there, leads to, unless something is in the way.
fn place<'b>(path: &Path, bytes: &'b [u8]) -> Result<Place<'b>, String> {
    match fs::symlink_metadata(path) {
        Err(error) if error.kind() == ErrorKind::NotFound => {
            let folder = path.parent().and_then(|folder| fs::canonicalize(folder).ok());
            let path = folder.map_or(path.to_path_buf(), |folder| folder.join(path.file_name().unwrap_or_default()));
            return Ok(Place { path, exists: false, bytes });
        }
        Err(error) => return Err(error.to_string()),
        Ok(_) => {}
    }
    let path = fs::canonicalize(path).map_err(|error| error.to_string())?;
    let data = fs::metadata(&path).map_err(|error| error.to_string())?;
    if !data.is_file() {
        return Err("it is no file".to_string());
    }
    let may_be_written = !data.permissions().readonly() && OpenOptions::new().write(true).open(&path).is_ok();
    match may_be_written {
        true => Ok(Place { path, exists: true, bytes }),
        false => Err("it may not be written to".to_string()),
    }
}

type Written = Result<(), (PathBuf, io::Error)>;

impl Place<'_> {
    /// A name beside the place, under which something is kept until all is done.
    fn beside(&self, what: &str) -> PathBuf {
        let name = self.path.file_name().unwrap_or_default().to_string_lossy().into_owned();
        self.path.with_file_name(format!(".{name}.encode-{what}"))
    }

    /// Writes the bytes beside the place, for the same owner and with the same rights, and keeps what is there under
    /// another name too.
    fn prepare(&self) -> Written {
        self.tidy();
        let folder = self.path.parent().unwrap_or(Path::new(".")).to_path_buf();
        self.write_new().and_then(|()| self.keep_old()).map_err(|error| (folder, error))
    }

    fn write_new(&self) -> io::Result<()> {
        let new = self.beside("new");
        OpenOptions::new().write(true).create_new(true).open(&new)?.write_all(self.bytes)?;
        if self.exists {
            let data = fs::metadata(&self.path)?;
            // Only root can give files away; for others the file stays their own.
            let _ = chown(&new, Some(data.uid()), Some(data.gid()));
            fs::set_permissions(&new, data.permissions())?;
        }
        Ok(())
    }

    fn keep_old(&self) -> io::Result<()> {
        match self.exists {
            true => fs::hard_link(&self.path, self.beside("old"))
                .or_else(|_| fs::copy(&self.path, self.beside("old")).map(|_| ())),
            false => Ok(()),
        }
    }

    /// Puts the new bytes in their place; at no moment is there nothing.
    fn replace(&self) -> Written {
        fs::rename(self.beside("new"), &self.path).map_err(|error| (self.path.clone(), error))
    }

    /// Puts back what was there.
    fn restore(&self) {
        let _ = match self.exists {
            true => fs::rename(self.beside("old"), &self.path),
            false => fs::remove_file(&self.path),
        };
    }

    fn tidy(&self) {
        for what in ["new", "old"] {
            let _ = fs::remove_file(self.beside(what));
        }
    }
}

fn replace(places: &[Place]) -> Written {
    for (index, place) in places.iter().enumerate() {
        if let Err(failed) = place.replace() {
            places[..index].iter().for_each(Place::restore);
            return Err(failed);
        }
    }
    Ok(())
}

#[cfg(test)]
mod tests {
    use super::*;

    /// Where the third file cannot be put in its place, the first is as it was, and the second is gone again.
    #[test]
    fn what_has_gone_to_its_place_is_put_back() {
        let folder = std::env::temp_dir().join(format!("encode-{}", std::process::id()));
        fs::create_dir_all(folder.join("third/full")).expect("a folder that no file can replace");
        fs::write(folder.join("first"), "old").expect("a file");
        let place = |name: &str, exists| Place { path: folder.join(name), exists, bytes: b"new" };
        let places = [place("first", true), place("second", false), place("third", false)];
        let prepared: Written = places.iter().try_for_each(Place::prepare);
        prepared.expect("all are written beside");
        let (failed, _) = replace(&places).expect_err("the third is in the way");
        places.iter().for_each(Place::tidy);
        let left = fs::read_dir(&folder).expect("the folder").count();
        let first = fs::read_to_string(folder.join("first")).ok();
        fs::remove_dir_all(&folder).expect("nothing is left behind");
        assert_eq!((failed, left, first.as_deref()), (folder.join("third"), 2, Some("old")));
    }
}
