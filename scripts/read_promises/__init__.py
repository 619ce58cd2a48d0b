"""What scripts/promises is made of: it reads which calls users of crates can reach, what each promises, and whether that stands."""
