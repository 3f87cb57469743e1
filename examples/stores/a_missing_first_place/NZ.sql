CREATE TABLE about (id INTEGER PRIMARY KEY CHECK (id = 1), format INTEGER NOT NULL, node TEXT NOT NULL) STRICT;
CREATE TABLE entries (place INTEGER PRIMARY KEY, body TEXT NOT NULL) STRICT;
INSERT INTO about (id, format, node) VALUES (1, 2, 'NZ');
INSERT INTO entries (place, body) VALUES (0, '{"account":1,"input":"propose","to_account":7,"to_registry":"JP","units":["NZ:1:1-100:AAU"],"v":2}');
INSERT INTO entries (place, body) VALUES (1, '{"input":"received","message":{"call":"AcceptNotification","codes":[],"from":"ITL","status":"Accepted","to":"NZ","transaction":"NZ1"},"moment":1335830400,"v":2}');
DELETE FROM entries WHERE place = 0;
