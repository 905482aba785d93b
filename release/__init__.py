"""The released programs: what they were made of, and which program runs in this checkout."""
