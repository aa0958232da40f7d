"""Everything that is tried without a proof. `./test` runs it; each case is one of the standard library's `unittest`, and runs alone by its name."""
