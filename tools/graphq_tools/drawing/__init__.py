"""graphq-draw: pictures of rows and plans, by Graphviz."""
