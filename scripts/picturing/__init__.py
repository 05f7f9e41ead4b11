"""A list of calls with its answers as a picture: see scripts/picture."""
