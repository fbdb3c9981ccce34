"""graphq-import: makes a graph that graphq loads out of a graph in another form."""
