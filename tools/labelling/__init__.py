"""What tools/label does: from the listing of an image to a source with labels, of which the program makes the same
bytes. `label.labelled` does all of it, and `label.comes_back` says of an image whether it can be done."""
