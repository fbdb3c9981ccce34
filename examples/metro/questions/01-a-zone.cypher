// The stations of the outermost zone.
MATCH (s:Station {zone: 4})
RETURN s.name
ORDER BY s.name;
