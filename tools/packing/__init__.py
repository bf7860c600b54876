"""How the files of a release are packed, the same bytes each time."""
