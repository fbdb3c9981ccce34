// Within zone 1: from Central along one line, and on along another one from there. The second
// clause might take the first one's track again, but for the condition.
MATCH (:Station {code: 'CEN'})-[t:TRACK]->(s {zone: 1})
MATCH (s)-[u:TRACK]->(r {zone: 1})
WHERE t.line <> u.line
RETURN s.name, t.line, u.line, r.name, t.minutes + u.minutes AS minutes
ORDER BY minutes, t.line, r.name;
