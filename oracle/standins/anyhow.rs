//! Stands in for the crate anyhow: an error that is a message.

#[derive(Debug)]
pub struct Error(pub String);

pub type Result<T> = std::result::Result<T, Error>;

impl From<std::io::Error> for Error {
    fn from(error: std::io::Error) -> Error {
        Error(error.to_string())
    }
}

#[macro_export]
macro_rules! anyhow {
    ($($message:tt)*) => { $crate::Error(format!($($message)*)) };
}
