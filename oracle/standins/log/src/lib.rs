//! Stand-in for `log`: messages are left out of the port, and dropped here.

#[macro_export]
macro_rules! trace { ($($arg:tt)*) => { let _ = format_args!($($arg)*); } }
#[macro_export]
macro_rules! debug { ($($arg:tt)*) => { let _ = format_args!($($arg)*); } }
#[macro_export]
macro_rules! warn { ($($arg:tt)*) => { let _ = format_args!($($arg)*); } }
