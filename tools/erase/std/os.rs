//! What Unix has of files. Elsewhere no file has an owner, and its mode says only whether it may be written.
pub mod unix {
    pub mod fs {
        use crate::std::fs::{OpenOptions, Permissions};
        use crate::std::io;
        use crate::std::prelude::HostRuntime;

        #[cfg(unix)]
        pub use ::std::os::unix::fs::MetadataExt;

        #[cfg(not(unix))]
        pub trait MetadataExt {
            fn uid(&self) -> u32;

            fn gid(&self) -> u32;

            fn mode(&self) -> u32;
        }

        #[cfg(not(unix))]
        impl MetadataExt for ::std::fs::Metadata {
            fn uid(&self) -> u32 {
                0
            }

            fn gid(&self) -> u32 {
                0
            }

            fn mode(&self) -> u32 {
                if self.permissions().readonly() { 0o444 } else { 0o644 }
            }
        }

        pub trait OpenOptionsExt {
            /// Sets the mode of a file that is created.
            fn mode(&mut self, mode: u32) -> &mut Self;
        }

        impl OpenOptionsExt for OpenOptions {
            #[cfg(unix)]
            fn mode(&mut self, mode: u32) -> &mut Self {
                ::std::os::unix::fs::OpenOptionsExt::mode(&mut self.0, mode);
                self
            }

            #[cfg(not(unix))]
            fn mode(&mut self, _mode: u32) -> &mut Self {
                self
            }
        }

        pub trait PermissionsExt {
            fn from_mode(mode: u32) -> Self;
        }

        impl PermissionsExt for Permissions {
            fn from_mode(mode: u32) -> Self {
                Permissions(mode)
            }
        }

        /// Changes the owner and the group of a file, as far as they are given.
        #[cfg(unix)]
        pub fn chown(_rt: &HostRuntime, name: &str, owner: Option<u32>, group: Option<u32>) -> io::Result<()> {
            ::std::os::unix::fs::chown(name, owner, group)
        }

        #[cfg(not(unix))]
        pub fn chown(_rt: &HostRuntime, _name: &str, _owner: Option<u32>, _group: Option<u32>) -> io::Result<()> {
            Ok(())
        }
    }
}
