// Which five packages for version control take the most room on a disk, and how much?
MATCH (p:Package)-[:IN_SECTION]->(:Section {name: 'vcs'})
RETURN p.name AS package, p.installed_kb / 1024 AS megabytes
ORDER BY p.installed_kb DESC, package
LIMIT 5;
