SELECT DISTINCT d."from", d."to"
FROM depends d JOIN depends e ON e."from" = d."to" JOIN in_section i ON i."from" = d."to"
WHERE e."to" = 'python3' AND i."to" = 'vcs'
ORDER BY d."from", d."to";
