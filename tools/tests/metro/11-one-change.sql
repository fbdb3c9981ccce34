SELECT first.source, change.name, second.source
FROM STOPS_AT first
JOIN Station home ON home.code = first.target AND home.name = 'Windmill Hill'
JOIN STOPS_AT off ON off.source = first.source AND off.number <> first.number
JOIN STOPS_AT again ON again.target = off.target AND again.number NOT IN (first.number, off.number)
JOIN STOPS_AT second ON second.source = again.source AND second.number NOT IN (first.number, off.number, again.number)
JOIN Station goal ON goal.code = second.target AND goal.name = 'Hospital'
JOIN Station change ON change.code = off.target
WHERE off.place > first.place
ORDER BY change.name, second.source;
