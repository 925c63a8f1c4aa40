"""A cartridge of a GPL source: its image, its file for an emulator, and what takes up its room."""
