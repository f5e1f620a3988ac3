"""What `.ci/hostile.py` and `.ci/refused.py` have in common: scripts, their damage, and how the program is run on them."""
