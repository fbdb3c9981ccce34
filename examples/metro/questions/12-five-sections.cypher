// Where does one come from Northgate by five sections, and how quickly? The first five answers.
MATCH (:Station {code: 'NOR'})-[t:TRACK]->()-[u:TRACK]->()
                              -[v:TRACK]->()-[w:TRACK]->()-[x:TRACK]->(end)
RETURN DISTINCT end.name AS station,
                t.minutes + u.minutes + v.minutes + w.minutes + x.minutes AS minutes
ORDER BY minutes, station
LIMIT 5;
