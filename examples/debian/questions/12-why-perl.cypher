// Why does one get perl with dgit? A row for each way to it by way of one to three other packages, with the first of these.
MATCH (perl:Package {name: 'perl'}), (:Package {name: 'dgit'})-[:DEPENDS]->(first)-[:DEPENDS*1..3]->(perl)
RETURN first.name AS by_way_of
ORDER BY by_way_of;
