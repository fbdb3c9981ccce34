WITH RECURSIVE trail(line, next_station, station, taken, sections) AS (
    SELECT t.line, s.name, t.target, '.' || t.number || '.', 1
    FROM Station o JOIN TRACK t ON t.source = o.code JOIN Station s ON s.code = t.target
    WHERE o.name = 'Northgate'
    UNION ALL
    SELECT trail.line, next_station, t.target, taken || t.number || '.', sections + 1 FROM trail
    JOIN TRACK t ON t.source = station AND taken NOT LIKE '%.' || t.number || '.%'
    WHERE sections < 6
)
SELECT trail.line, next_station FROM trail JOIN Station b ON b.code = station
WHERE b.name = 'Bridge Street' AND sections >= 2 ORDER BY trail.line, next_station;
