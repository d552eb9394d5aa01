"""Week files from tables, listings in words and pictures, and a whole network in one run."""
