"""What the scripts of this repository have in common. Each module has one subject; they need Python 3.9 and no more."""
