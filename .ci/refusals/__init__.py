"""What `.ci/also_refused.py` is made of: edits and where they stand, which of them are tried first, and their tries."""
