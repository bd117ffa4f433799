/* The statements of a round: tables, indices, joins, a trigger, a transaction that is rolled back, search in texts. */
"CREATE TABLE people(id INTEGER PRIMARY KEY, name TEXT, age INT, city TEXT);"
"CREATE TABLE trips(id INTEGER PRIMARY KEY, person INT REFERENCES people(id), kilometres REAL);"
"CREATE TABLE log(what TEXT); CREATE INDEX by_city ON people(city, age);"
"CREATE TRIGGER told AFTER DELETE ON people BEGIN INSERT INTO log VALUES('left: ' || old.name); END;",

"BEGIN;"
"WITH RECURSIVE n(i) AS (SELECT 1 UNION ALL SELECT i + 1 FROM n WHERE i < 200)"
" INSERT INTO people SELECT i, printf('name %03d', i * 37 % 200), 20 + i * 7 % 60, char(65 + i % 5) FROM n;"
"WITH RECURSIVE n(i) AS (SELECT 1 UNION ALL SELECT i + 1 FROM n WHERE i < 600)"
" INSERT INTO trips SELECT i, 1 + i * 13 % 200, i * 1.5 FROM n;"
"COMMIT;",

"SELECT city, count(*), avg(age), min(name), max(name) FROM people GROUP BY city ORDER BY city;",
"SELECT p.name, sum(t.kilometres) AS all_of_them FROM people p JOIN trips t ON t.person = p.id"
" GROUP BY p.id HAVING all_of_them > 1500 ORDER BY all_of_them DESC, p.name LIMIT 5;",
"UPDATE people SET age = age + 1 WHERE city IN ('A', 'C'); SELECT sum(age), changes() FROM people;",
"DELETE FROM people WHERE id % 50 = 0; SELECT group_concat(what, ', ') FROM log;",
"BEGIN; DELETE FROM trips; SELECT count(*) FROM trips; ROLLBACK; SELECT count(*), total(kilometres) FROM trips;",
"CREATE VIRTUAL TABLE texts USING fts4(body);"
"INSERT INTO texts VALUES('a machine of words'), ('word by word'), ('modules that distrust one another');",
"SELECT docid, snippet(texts) FROM texts WHERE body MATCH 'word*' ORDER BY docid;",
"SELECT hex(randomblob(0)), typeof(1.0), quote(x'00ff'), 7 / 2, 7 / 2.0, round(2.675, 2), upper('abc') || NULL;",
"EXPLAIN QUERY PLAN SELECT * FROM people WHERE city = 'B' AND age > 30;",
"PRAGMA integrity_check; PRAGMA page_count;",
"DROP TABLE texts; DROP TABLE log; DROP TABLE trips; DROP TABLE people; VACUUM; PRAGMA page_count;",
