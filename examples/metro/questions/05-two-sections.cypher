// How far does one come from the Brewery in two sections, either way, and in which time?
MATCH (:Station {name: 'Brewery'})-[t:TRACK]-(over)-[u:TRACK]-(s)
RETURN s.name AS station, over.name AS over, t.minutes + u.minutes AS minutes
ORDER BY minutes, station;
