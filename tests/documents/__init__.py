"""What the documents name, beside what there is: files, crates, functions, flags and titles."""
