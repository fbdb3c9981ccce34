// Where does a track lead back to its own station? It matches once, although it is asked for either way.
MATCH (s)-[t:TRACK]-(s)
RETURN *, t.line;
