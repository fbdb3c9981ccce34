SELECT DISTINCT m."to", n."to"
FROM depends d
JOIN maintained_by m ON m."from" = d."from"
JOIN maintained_by n ON n."from" = d."to" AND n.rowid <> m.rowid
JOIN in_section i ON i."from" = d."from" AND i."to" = 'vcs'
JOIN in_section j ON j."from" = d."to" AND j."to" = 'vcs' AND j.rowid <> i.rowid
WHERE m."to" <> n."to"
ORDER BY m."to", n."to"
LIMIT 10 OFFSET 5;
