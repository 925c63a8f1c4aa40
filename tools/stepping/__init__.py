"""What tools/steps does: from the reports of ti_debug to a page in which a run is gone through. `run.run_of` reads a
run, `listing.listing_of` the lines and names of a source, and `page.page` writes both as one HTML file."""
