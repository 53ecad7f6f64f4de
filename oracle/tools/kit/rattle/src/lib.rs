//! In place of what Rattle's library has and Rust's has otherwise: the handle that `main` takes, and what reads and prints by it.

use std::fmt;

/// The handle of a program.
#[derive(Clone, Copy)]
pub struct HostRuntime;

/// What reads standard input.
pub trait Input {
    fn reader(&self) -> std::io::Stdin;
}

impl Input for HostRuntime {
    fn reader(&self) -> std::io::Stdin {
        std::io::stdin()
    }
}

/// What prints to standard output.
pub trait Print {
    fn write_all(&self, bytes: &[u8]) -> std::io::Result<()>;

    fn print(&self, text: fmt::Arguments) -> std::io::Result<()>;
}

impl Print for HostRuntime {
    fn write_all(&self, bytes: &[u8]) -> std::io::Result<()> {
        std::io::Write::write_all(&mut std::io::stdout().lock(), bytes)
    }

    fn print(&self, text: fmt::Arguments) -> std::io::Result<()> {
        std::io::Write::write_fmt(&mut std::io::stdout().lock(), text)
    }
}

/// What lends itself as a slice.
pub trait AsSlice<T> {
    fn as_slice(&self) -> &[T];
}

impl<T> AsSlice<T> for &[T] {
    fn as_slice(&self) -> &[T] {
        self
    }
}

impl<T, const N: usize> AsSlice<T> for [T; N] {
    fn as_slice(&self) -> &[T] {
        self
    }
}

#[macro_export]
macro_rules! print {
    ($rt:expr; $($text:tt)*) => {
        $rt.print(format_args!($($text)*))
    };
}

#[macro_export]
macro_rules! println {
    ($rt:expr;) => {
        $rt.write_all(b"\n")
    };
    ($rt:expr; $($text:tt)*) => {
        $rt.print(format_args!("{}\n", format_args!($($text)*)))
    };
}

pub mod io {
    pub use std::io::*;

    pub fn writer(_: &super::HostRuntime) -> Stdout {
        stdout()
    }
}

pub mod fs {
    pub struct File;

    impl File {
        pub fn open(_: &super::HostRuntime, name: &str) -> std::io::Result<std::fs::File> {
            std::fs::File::open(name)
        }
    }
}
