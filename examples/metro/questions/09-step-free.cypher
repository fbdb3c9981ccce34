// Which stations of the Ring are free of steps, in the order of the line? Not all were looked at.
MATCH (:Line {name: 'Ring'})-[stop:STOPS_AT]->(s)
RETURN stop.place, s.name, coalesce(s.step_free, 'not known yet') AS step_free
ORDER BY stop.place;
