"""What try-skipping consists of: reading statistics out of files, making files, and predicates with the rules that skip by them."""
