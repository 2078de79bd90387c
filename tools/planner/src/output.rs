//! Standard output, and files written whole or not at all.

use crate::input::shown;
use crate::stop::Stop;
use std::ffi::OsStr;
use std::fs::{File, OpenOptions};
use std::io::{ErrorKind, Write};
use std::os::fd::AsFd;
use std::path::{Path, PathBuf};

/// A reader that has gone wants nothing more, and needs no message.
pub fn unwritten(error: std::io::Error) -> Stop {
    match error.kind() {
        ErrorKind::BrokenPipe => Stop::Closed,
        _ => Stop::Stream(format!("standard output: cannot be written: {error}")),
    }
}

/// Standard output as a file, which tells every error; that of the library takes one that is not open for writing as written.
pub fn standard() -> Result<File, Stop> {
    std::io::stdout().as_fd().try_clone_to_owned().map(File::from).map_err(unwritten)
}

pub fn print(text: &[u8]) -> Result<(), Stop> {
    standard()?.write_all(text).map_err(unwritten)
}

/// How many links are followed; the system follows no more.
const LINKS: usize = 40;

/// Where a file is, or is to be, that a path names through links.
pub fn led_to(path: &OsStr) -> PathBuf {
    let mut found = PathBuf::from(path);
    for _ in 0..LINKS {
        let Ok(link) = std::fs::read_link(&found) else { break };
        found = found.parent().map_or(link.clone(), |folder| folder.join(&link));
    }
    let folder = found.parent().filter(|folder| !folder.as_os_str().is_empty()).unwrap_or(Path::new("."));
    match (std::fs::canonicalize(folder), found.file_name()) {
        (Ok(folder), Some(name)) => folder.join(name),
        _ => found,
    }
}

/// A new file beside another, with a name of its own.
fn beside(path: &Path) -> std::io::Result<(File, PathBuf)> {
    let mut number = 0;
    loop {
        let part = path.with_file_name(format!(".planner-{}-{number}.part", std::process::id()));
        match OpenOptions::new().write(true).create_new(true).open(&part) {
            Err(error) if error.kind() == ErrorKind::AlreadyExists && number < 100 => number += 1,
            opened => return opened.map(|file| (file, part)),
        }
    }
}

/// Written beside the file, which then takes its place and has its permissions.
fn replaced(path: &Path, text: &[u8]) -> std::io::Result<()> {
    let kept = match OpenOptions::new().write(true).open(path) {
        Ok(file) => Some(file.metadata()?.permissions()),
        Err(error) if error.kind() == ErrorKind::NotFound => None,
        Err(error) => return Err(error),
    };
    let (mut file, part) = beside(path)?;
    let whole = || {
        file.write_all(text)?;
        kept.map_or(Ok(()), |permissions| file.set_permissions(permissions))?;
        file.sync_all()?;
        std::fs::rename(&part, path)
    };
    whole().inspect_err(|_| {
        let _ = std::fs::remove_file(&part);
    })
}

/// Writes a file. What stood there stays until all is written; a device or a pipe is written to as it is.
pub fn write(path: &OsStr, text: &[u8]) -> Result<(), Stop> {
    let written = match Path::new(path).metadata() {
        Ok(found) if !found.is_file() => OpenOptions::new().write(true).open(path).and_then(|mut file| file.write_all(text)),
        _ => replaced(&led_to(path), text),
    };
    written.map_err(|error| Stop::Stream(format!("{}: cannot be written: {error}", shown(path))))
}

#[cfg(test)]
mod tests {
    use super::*;
    use std::os::unix::fs::{symlink, PermissionsExt};

    /// A folder of its own for a test.
    fn folder(name: &str) -> PathBuf {
        let path = std::env::temp_dir().join(format!("planner-{}-{name}", std::process::id()));
        std::fs::create_dir_all(&path).expect("a folder");
        path
    }

    #[test]
    fn links_lead_to_the_file_that_is_written() {
        let folder = folder("links");
        let [file, link, loose, chain] = ["file", "link", "loose", "chain"].map(|name| folder.join(name));
        std::fs::write(&file, "before").expect("a file");
        symlink(&file, &link).expect("a link");
        symlink("new", &loose).expect("a link to nothing");
        symlink("loose", &chain).expect("a link to a link");
        write(link.as_os_str(), b"after").expect("written");
        write(chain.as_os_str(), b"new").expect("written");
        assert!(link.is_symlink() && loose.is_symlink() && chain.is_symlink());
        let read = |name: &str| std::fs::read_to_string(folder.join(name)).expect("read");
        assert_eq!([read("file"), read("new")], ["after", "new"]);
        assert_eq!(std::fs::read_dir(&folder).expect("listed").count(), 5, "nothing else is left");
        std::fs::remove_dir_all(folder).expect("removed");
    }

    #[test]
    fn a_file_keeps_its_permissions_and_a_long_name_is_written() {
        let folder = folder("modes");
        let file = folder.join("x".repeat(250));
        std::fs::write(&file, "before").expect("a file");
        std::fs::set_permissions(&file, std::fs::Permissions::from_mode(0o640)).expect("set");
        write(file.as_os_str(), b"after").expect("written");
        let mode = file.metadata().expect("there").permissions().mode();
        assert_eq!((mode & 0o777, std::fs::read(&file).expect("read")), (0o640, b"after".to_vec()));
        std::fs::remove_dir_all(folder).expect("removed");
    }
}
