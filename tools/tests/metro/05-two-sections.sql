WITH section AS (
    SELECT number, source AS here, target AS there, minutes FROM TRACK
    UNION ALL
    SELECT number, target, source, minutes FROM TRACK WHERE source <> target
)
SELECT s.name AS station, over.name AS over, t.minutes + u.minutes AS minutes
FROM section t
JOIN section u ON u.here = t.there AND u.number <> t.number
JOIN Station b ON b.code = t.here
JOIN Station over ON over.code = t.there
JOIN Station s ON s.code = u.there
WHERE b.name = 'Brewery'
ORDER BY t.minutes + u.minutes NULLS LAST, s.name;
