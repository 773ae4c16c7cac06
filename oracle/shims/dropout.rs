//! Stands in for the missing file; nothing that the oracle runs uses it.
