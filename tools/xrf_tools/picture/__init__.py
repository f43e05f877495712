"""Pictures of a run: a page with SVG (`page`), and columns for a terminal (`columns`)."""
