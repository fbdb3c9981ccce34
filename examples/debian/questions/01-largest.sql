SELECT p.name, p.installed_kb / 1024
FROM package p JOIN in_section i ON i."from" = p.name
WHERE i."to" = 'vcs'
ORDER BY p.installed_kb DESC, p.name
LIMIT 5;
