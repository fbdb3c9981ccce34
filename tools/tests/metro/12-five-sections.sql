SELECT DISTINCT s.name, t.minutes + u.minutes + v.minutes + w.minutes + x.minutes AS minutes
FROM TRACK t
JOIN TRACK u ON u.source = t.target AND u.number <> t.number
JOIN TRACK v ON v.source = u.target AND v.number NOT IN (t.number, u.number)
JOIN TRACK w ON w.source = v.target AND w.number NOT IN (t.number, u.number, v.number)
JOIN TRACK x ON x.source = w.target AND x.number NOT IN (t.number, u.number, v.number, w.number)
JOIN Station s ON s.code = x.target
WHERE t.source = 'NOR'
ORDER BY minutes NULLS LAST, s.name
LIMIT 5;
