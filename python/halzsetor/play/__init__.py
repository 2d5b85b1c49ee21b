"""A script beside what it prints: what each line of it caused, with the names that hold the objects."""
