"""The reading edition: docs/READING.md and the definitions of crates/*/specs as pages to read and to print."""
