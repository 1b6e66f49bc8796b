"""A slow reference for nanobot's rules, written from docs/FORMATS.md alone. README.md says what it is for."""
