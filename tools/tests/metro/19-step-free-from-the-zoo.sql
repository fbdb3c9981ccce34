WITH RECURSIVE reached(station) AS (
    SELECT t.target FROM Station z JOIN TRACK t ON t.source = z.code WHERE z.name = 'Zoo'
    UNION
    SELECT t.target FROM reached JOIN TRACK t ON t.source = station
)
SELECT s.name, s.zone FROM reached JOIN Station s ON s.code = station WHERE s.step_free ORDER BY s.zone, s.name;
