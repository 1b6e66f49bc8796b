"""The static checks of the repository, one topic a file. `scripts/check` runs them."""
