SELECT d."from", d."to", e."to"
FROM depends d
JOIN package g ON g.name = d."to" AND g.kind = 'missing'
JOIN depends e ON e."from" = d."from" AND e.choice = d.choice AND e.rowid <> d.rowid
JOIN package i ON i.name = e."to" AND i.kind <> 'missing'
ORDER BY d."from", d."to", e."to"
LIMIT 10;
