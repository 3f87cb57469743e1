CREATE TABLE about (id INTEGER PRIMARY KEY CHECK (id = 1), format INTEGER NOT NULL, node TEXT NOT NULL) STRICT;
CREATE TABLE entries (place INTEGER PRIMARY KEY, body TEXT NOT NULL) STRICT;
INSERT INTO about (id, format, node) VALUES (1, 2, 'NZ');
WITH RECURSIVE places (place) AS (SELECT 0 UNION ALL SELECT place + 1 FROM places WHERE place < 4)
INSERT INTO entries (place, body) SELECT place, CASE place % 2
  WHEN 0 THEN '{"account":2,"input":"close","v":2}'
  ELSE '{"account":2,"input":"open","v":2}' END FROM places;
UPDATE entries SET body = '{"account":2,"input":"close","v":2}' WHERE place = 1;
UPDATE entries SET body = 'x' WHERE place = 3;
