// Which names do packages still depend on that nothing in the lists has, and which may they take instead?
MATCH (p)-[d:DEPENDS]->(gone {kind: 'missing'}), (p)-[e:DEPENDS]->(instead)
WHERE d.choice = e.choice AND instead.kind <> 'missing'
RETURN p.name AS package, gone.name AS not_there, instead.name AS other
ORDER BY package, not_there, other
LIMIT 10;
