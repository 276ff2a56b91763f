//! Stand-in for `anyhow`: an error is its first message; context is dropped.
use std::fmt;

#[derive(Debug)]
pub struct Error(pub String);

pub type Result<T, E = Error> = std::result::Result<T, E>;

impl Error {
    /// The message that was raised first, by which the oracle tells 7, 8 and 9 apart.
    pub fn cause(&self) -> &str {
        &self.0
    }
}

impl fmt::Display for Error {
    fn fmt(&self, f: &mut fmt::Formatter) -> fmt::Result {
        f.write_str(&self.0)
    }
}

pub trait Context<T> {
    fn with_context<F: FnOnce() -> String>(self, f: F) -> Result<T>;
}

impl<T> Context<T> for Result<T> {
    fn with_context<F: FnOnce() -> String>(self, _: F) -> Result<T> {
        self
    }
}

impl<T> Context<T> for Option<T> {
    fn with_context<F: FnOnce() -> String>(self, f: F) -> Result<T> {
        self.ok_or_else(|| Error(f()))
    }
}

#[macro_export]
macro_rules! anyhow { ($($arg:tt)*) => { $crate::Error(format!($($arg)*)) } }

#[macro_export]
macro_rules! bail { ($($arg:tt)*) => { return Err($crate::anyhow!($($arg)*)) } }

#[macro_export]
macro_rules! ensure {
    ($cond:expr $(,)?) => { if !$cond { $crate::bail!("{}", stringify!($cond)) } };
    ($cond:expr, $($arg:tt)*) => { if !$cond { $crate::bail!($($arg)*) } };
}
