"""What the helpers `view` and `picture` draw by: journals and reports of a run, its bars and rows, and the page."""
