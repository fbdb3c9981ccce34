// Which packages want a git of some least version, rather than just any?
MATCH (p:Package)-[d:DEPENDS]->(:Package {name: 'git'})
WHERE d.version IS NOT NULL
RETURN p.name AS package, d.version AS version
ORDER BY package, version;
