//! Timeouts of files: no operation here sets one.
