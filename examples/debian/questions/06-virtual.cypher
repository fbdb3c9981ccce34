// Which packages name a virtual package, and who provides it here?
MATCH (p:Package)-[:DEPENDS|RECOMMENDS|SUGGESTS]->(v:Package {kind: 'virtual'})<-[:PROVIDES]-(q:Package)
WHERE v.name <> 'debconf-2.0'
RETURN DISTINCT v.name AS virtual, p.name AS wanted_by, q.name AS provided_by
ORDER BY virtual, wanted_by, provided_by
LIMIT 12;
