"""Document 01 as a small program, written apart from the crates: it says which listed difference a listing shows."""
