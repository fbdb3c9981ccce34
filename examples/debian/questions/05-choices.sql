SELECT d."from", d."to", e."to"
FROM depends d
JOIN depends e ON e."from" = d."from" AND e.choice = d.choice AND e.rowid <> d.rowid
JOIN in_section i ON i."from" = d."to" AND i."to" = 'vcs'
JOIN package b ON b.name = e."to" AND b.kind = 'real'
ORDER BY d."from", d."to", e."to";
