"""What scripts/try-wrong-bodies is made of: it reads edits and their records, reckons their sums, and tries them."""
