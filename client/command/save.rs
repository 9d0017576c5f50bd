//! Changing a file: it is the old one or the new one, whole, whenever the writer is stopped. One writer at a time holds the file's lock; the new file is
//! written beside the old one and takes its place by one rename.
use crate::fault::{Done, Fault};
use std::ffi::OsString;
use std::fs::{self, File, OpenOptions, TryLockError};
use std::io::{self, Write};
use std::os::unix::fs::MetadataExt;
use std::path::{Path, PathBuf};
use vecq::Index;

// ---- the lock

/// The right to change a file, held until it is dropped.
pub struct Writer {
    /// The file as its user named it, for messages.
    named: PathBuf,
    file: PathBuf,
    lock: PathBuf,
    // The system lets go of it when the process ends, killed or not: so a lock file that nobody holds is a killed writer's.
    _held: File,
}

impl Writer {
    pub fn new(path: &Path) -> Done<Writer> {
        let file = behind_links(path).map_err(Fault::at(path))?;
        // A rename would put a file in the place of a device or a pipe.
        if fs::metadata(&file).is_ok_and(|found| !found.is_file()) {
            return Err(Fault::at(path)(io::Error::other("not a regular file")));
        }
        let lock = beside(&file, ".lock");
        match hold(&lock).map_err(Fault::at(&lock))? {
            Some(held) => Ok(Writer { named: path.to_path_buf(), file, lock, _held: held }),
            None => Err(Fault::at(path)(io::Error::new(io::ErrorKind::WouldBlock, "another writer is at work on it"))),
        }
    }

    /// Puts an index where there is no file. How many bytes it has.
    pub fn create(self, index: &Index) -> Done<usize> {
        // A link fails where the name is taken, by whomever; a rename would take it over.
        self.save(index, |new, file| fs::hard_link(new, file))
    }

    /// Puts an index in the place of the old file. How many bytes it has.
    pub fn replace(self, index: &Index) -> Done<usize> {
        self.save(index, |new, file| fs::rename(new, file))
    }

    fn save(self, index: &Index, put: impl FnOnce(&Path, &Path) -> io::Result<()>) -> Done<usize> {
        let bytes = index.to_bytes().map_err(Fault::on(self.named.display()))?;
        let mut draft = self.draft()?;
        draft.write(&bytes)?;
        draft.sync()?;
        draft.read_back(&bytes)?;
        draft.put(put)?;
        Ok(bytes.len())
    }

    /// A new file beside the file, with the file's mode if there is one.
    pub fn draft(self) -> Done<Draft> {
        let path = beside(&self.file, ".new");
        let file = made_new(&path).map_err(Fault::at(&path))?;
        let draft = Draft { writer: self, path, file };
        draft.take_mode().map_err(Fault::at(&draft.path))?;
        Ok(draft)
    }
}

impl Drop for Writer {
    fn drop(&mut self) {
        let _ = fs::remove_file(&self.lock);
    }
}

/// What a link points to, since a link stays a link; a path that is none as it is, so that messages name it so.
fn behind_links(path: &Path) -> io::Result<PathBuf> {
    let is_link = fs::symlink_metadata(path).is_ok_and(|found| found.is_symlink());
    match if is_link { fs::canonicalize(path) } else { Ok(path.to_path_buf()) } {
        // A link to nothing is a name that is taken: making a file there says so.
        Err(error) if error.kind() == io::ErrorKind::NotFound => Ok(path.to_path_buf()),
        resolved => resolved,
    }
}

/// The path with more at its end.
fn beside(path: &Path, ending: &str) -> PathBuf {
    let mut name = OsString::from(path);
    name.push(ending);
    PathBuf::from(name)
}

/// The lock file, locked; none while another process holds it.
fn hold(path: &Path) -> io::Result<Option<File>> {
    loop {
        let file = OpenOptions::new().write(true).create(true).truncate(false).open(path)?;
        match file.try_lock() {
            Ok(()) => {}
            Err(TryLockError::WouldBlock) => return Ok(None),
            Err(TryLockError::Error(error)) => return Err(error),
        }
        // Between opening and locking its holder may have removed it: then another process can lock a new one of the same name.
        if is_at(&file, path)? {
            return Ok(Some(file));
        }
    }
}

/// Whether the path still names this open file.
fn is_at(file: &File, path: &Path) -> io::Result<bool> {
    let open = file.metadata()?;
    match fs::metadata(path) {
        Ok(named) => Ok(named.dev() == open.dev() && named.ino() == open.ino()),
        Err(error) if error.kind() == io::ErrorKind::NotFound => Ok(false),
        Err(error) => Err(error),
    }
}

// ---- the new file

/// A file that is still to be put into its place. Its own name is gone with it, whether it was put or not.
pub struct Draft {
    writer: Writer,
    path: PathBuf,
    file: File,
}

impl Draft {
    pub fn write(&mut self, bytes: &[u8]) -> Done<()> {
        self.file.write_all(bytes).map_err(Fault::at(&self.path))
    }

    fn sync(&self) -> Done<()> {
        self.file.sync_all().map_err(Fault::at(&self.path))
    }

    /// What stands on the disk is read by the library, and written again gives the same bytes.
    fn read_back(&self, bytes: &[u8]) -> Done<()> {
        let new = &self.path;
        let stored = fs::read(new).map_err(Fault::at(new))?;
        let read = Index::from_bytes(&stored, 0).map_err(Fault::on(new.display()))?;
        let again = read.to_bytes().map_err(Fault::on(new.display()))?;
        if stored != bytes || again != bytes {
            return Err(Fault::at(new)(io::Error::other("what was stored is not what was written")));
        }
        Ok(())
    }

    /// Puts the file in the place of the old one.
    pub fn replace(self) -> Done<()> {
        self.sync()?;
        self.put(|new, file| fs::rename(new, file))
    }

    /// The file is in its place, on the disk too, after this.
    fn put(self, put: impl FnOnce(&Path, &Path) -> io::Result<()>) -> Done<()> {
        let (named, file) = (&self.writer.named, &self.writer.file);
        put(&self.path, file).map_err(Fault::at(named))?;
        // From here on the new file is the one that others see, and taking it back could lose both.
        sync_folder(file)
            .map_err(|error| Fault::System(format!("{}: the new file is in its place, but may not stay there after a power cut", named.display()), error))
    }

    fn take_mode(&self) -> io::Result<()> {
        match fs::metadata(&self.writer.file) {
            Ok(old) => self.file.set_permissions(old.permissions()),
            Err(error) if error.kind() == io::ErrorKind::NotFound => Ok(()),
            Err(error) => Err(error),
        }
    }
}

impl Drop for Draft {
    fn drop(&mut self) {
        // After a rename there is no such name. The lock is let go after this, so the name is no other writer's.
        let _ = fs::remove_file(&self.path);
    }
}

/// Makes a new file. Under the lock, one that is there already is a killed writer's.
fn made_new(path: &Path) -> io::Result<File> {
    match fs::remove_file(path) {
        Err(error) if error.kind() != io::ErrorKind::NotFound => return Err(error),
        _ => {}
    }
    OpenOptions::new().write(true).create_new(true).open(path)
}

fn sync_folder(path: &Path) -> io::Result<()> {
    let folder = path.parent().filter(|folder| !folder.as_os_str().is_empty()).unwrap_or(Path::new("."));
    File::open(folder)?.sync_all()
}
