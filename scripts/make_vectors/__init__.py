"""What scripts/make-vectors is made of: a writer of ORC files of its own, by the published rules, and the vectors
that it writes."""
