//! Stand-in for log: the one macro that the upstream files use, which writes nothing.

#[macro_export]
macro_rules! debug {
    ($($message:tt)*) => {
        let _ = ::std::format_args!($($message)*);
    };
}
