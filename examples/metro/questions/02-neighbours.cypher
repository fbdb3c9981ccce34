// Which stations are next to Central, on which line, and how many minutes away? Either way along
// the tracks.
MATCH (:Station {name: 'Central'})-[t:TRACK]-(s)
RETURN s.name AS station, t.line AS line, t.minutes AS minutes
ORDER BY station, line;
