// From Windmill Hill to the Hospital with one change: by which line, where, and into which?
// The first train goes outwards.
MATCH (:Station {name: 'Windmill Hill'})<-[on:STOPS_AT]-(first)-[off:STOPS_AT]->(change),
      (change)<-[:STOPS_AT]-(then)-[:STOPS_AT]->(:Station {name: 'Hospital'})
WHERE off.place > on.place
RETURN first.name, change.name, then.name
ORDER BY change.name, then.name;
