"""Which definitions a reader believes."""
