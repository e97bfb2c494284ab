"""A meter behind a page of the browser."""
