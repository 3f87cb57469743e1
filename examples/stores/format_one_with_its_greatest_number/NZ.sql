CREATE TABLE about (id INTEGER PRIMARY KEY CHECK (id = 1), format INTEGER NOT NULL, node TEXT NOT NULL) STRICT;
CREATE TABLE entries (place INTEGER PRIMARY KEY, body TEXT NOT NULL) STRICT;
INSERT INTO about (id, format, node) VALUES (1, 1, 'NZ');
INSERT INTO entries (place, body) VALUES (0, '{"account":1,"input":"propose","to_account":7,"to_registry":"JP","units":["NZ:1:1-100:AAU"]}');
INSERT INTO entries (place, body) VALUES (1, '{"input":"received","message":{"account":1,"call":"AcceptProposal","from":"ITL","status":"Checked","to":"NZ","to_account":1,"to_registry":"NZ","transaction":"JP1","units":["JP:1:1-999999999999:AAU"]},"moment":1335830400}');
