//! Files, by paths that are texts.
use super::io;
use super::prelude::{HostRuntime, String};
pub use ::std::fs::Metadata;

/// A path that is UTF-8.
#[derive(Debug)]
pub struct PathText(String);

impl PathText {
    pub fn into_string(self) -> String {
        self.0
    }
}

/// An open file.
#[derive(Debug)]
pub struct File(::std::fs::File);

impl File {
    pub fn metadata(&self) -> io::Result<Metadata> {
        self.0.metadata()
    }

    pub fn set_permissions(&self, permissions: Permissions) -> io::Result<()> {
        self.0.set_permissions(permissions.of(&self.0)?)
    }

    pub fn sync_all(&self) -> io::Result<()> {
        self.0.sync_all()
    }
}

impl io::Read for File {
    fn read(&mut self, buffer: &mut [u8]) -> io::Result<usize> {
        self.0.read(buffer)
    }
}

impl io::Write for File {
    fn write(&mut self, bytes: &[u8]) -> io::Result<usize> {
        self.0.write(bytes)
    }

    fn flush(&mut self) -> io::Result<()> {
        self.0.flush()
    }
}

/// Who may use a file, by the bits of its mode. Elsewhere than on Unix, only whether it may be written.
#[derive(Clone, Copy, Debug)]
pub struct Permissions(pub(super) u32);

impl Permissions {
    #[cfg(unix)]
    fn of(self, _file: &::std::fs::File) -> io::Result<::std::fs::Permissions> {
        Ok(::std::os::unix::fs::PermissionsExt::from_mode(self.0))
    }

    #[cfg(not(unix))]
    fn of(self, file: &::std::fs::File) -> io::Result<::std::fs::Permissions> {
        let mut permissions = file.metadata()?.permissions();
        permissions.set_readonly(self.0 & 0o200 == 0);
        Ok(permissions)
    }
}

pub fn open(_rt: &HostRuntime, name: &str) -> io::Result<File> {
    ::std::fs::File::open(name).map(File)
}

pub fn canonicalize(_rt: &HostRuntime, name: &str) -> io::Result<PathText> {
    let path = ::std::fs::canonicalize(name)?.into_os_string().into_string();
    path.map(|text| PathText(String::from(text))).map_err(|_| io::Error::from(io::ErrorKind::InvalidData))
}

pub fn metadata(_rt: &HostRuntime, name: &str) -> io::Result<Metadata> {
    ::std::fs::metadata(name)
}

pub fn remove_file(_rt: &HostRuntime, name: &str) -> io::Result<()> {
    ::std::fs::remove_file(name)
}

pub fn rename(_rt: &HostRuntime, from: &str, to: &str) -> io::Result<()> {
    ::std::fs::rename(from, to)
}

/// How a file is opened.
#[derive(Clone, Debug)]
pub struct OpenOptions(pub(super) ::std::fs::OpenOptions);

impl OpenOptions {
    pub fn new() -> Self {
        OpenOptions(::std::fs::OpenOptions::new())
    }

    pub fn write(&mut self, on: bool) -> &mut Self {
        self.0.write(on);
        self
    }

    pub fn create_new(&mut self, on: bool) -> &mut Self {
        self.0.create_new(on);
        self
    }

    pub fn open(&self, _rt: &HostRuntime, name: &str) -> io::Result<File> {
        self.0.open(name).map(File)
    }
}
