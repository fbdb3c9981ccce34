WITH RECURSIVE way(first, name, steps, taken) AS (
    SELECT "to", "to", 0, ',' || rowid || ',' FROM depends WHERE "from" = 'dgit'
    UNION ALL
    SELECT w.first, d."to", w.steps + 1, w.taken || d.rowid || ','
    FROM way w JOIN depends d ON d."from" = w.name
    WHERE w.steps < 3 AND instr(w.taken, ',' || d.rowid || ',') = 0
)
SELECT first FROM way WHERE name = 'perl' AND steps >= 1 ORDER BY first;
