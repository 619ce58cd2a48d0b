"""What scripts/definitions is made of: it reads definitions and contracts by their form, and tells which rest on which."""
