SELECT s.name AS station, b.source AS line
FROM STOPS_AT a JOIN STOPS_AT b ON b.target = a.target AND b.number <> a.number JOIN Station s ON s.code = a.target
WHERE a.source = 'Harbour'
ORDER BY station, line;
