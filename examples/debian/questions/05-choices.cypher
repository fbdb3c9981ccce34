// Where will something else do in the place of a package for version control?
MATCH (:Section {name: 'vcs'})<-[:IN_SECTION]-(a)<-[d:DEPENDS]-(p)-[e:DEPENDS]->(b {kind: 'real'})
WHERE d.choice = e.choice
RETURN p.name AS package, a.name AS one, b.name AS other
ORDER BY package, one, other;
