"""Tests of the bridge on a private PostgreSQL server, with Python's standard library alone.

In reading order: `protocol` (a client), `extension` (builds gprom_capture), `cluster` (the server), `window` (what a user keeps of a server
while sessions run), `judge` (converts a window by the log or the capture, verifies it and asks gprom), `given` (what SELECTs gave, beside
the script), `report` (runs trials and counts). Then what the windows are of: `workload` (random transactions), `serial` and `starts` (what
SERIAL has to answer for these), `refusals` (what CONFLICTS has to), `bench` (pgbench), `cases` (by hand), `guesses` (where a log alone
misleads), `mutations` (scripts with a fault, which `verify` has to find), `reads` (four rows), `shop` (triggers, cascades and functions),
`orm` (applications), `long`, `replay` and `events` (windows of a long run), and what only a capture shows: `seen` (snapshots), `nested`
(statements in others), `meanings` (settings of sessions), `capturing` (the extension itself). `page` plays the commands of a document;
`isolation` has the isolation cases of examples/.
"""
