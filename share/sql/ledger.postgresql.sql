-- Loads the lines of a ledger into PostgreSQL (tried with version 15), and shows them as rows:  psql -f ledger.postgresql.sql DATABASE < ledger
-- A frame is known by its host and number, so the same lines may be loaded again. No line has a byte 1 or 2, so each is one field. What
-- a killed collector left of a line is passed over, and so are frames that say nothing new.
SET client_min_messages = warning;
CREATE TABLE IF NOT EXISTS frame (
    host text, number bigint, name text, mode text, moment timestamptz, names jsonb, rows jsonb, PRIMARY KEY (host, number)
);
CREATE INDEX IF NOT EXISTS frame_name ON frame (name, moment);
CREATE OR REPLACE VIEW result AS
    SELECT host, number, name, mode, moment, place,
        (SELECT jsonb_object_agg(key, value)
         FROM jsonb_array_elements_text(names) WITH ORDINALITY AS one (key, at) JOIN jsonb_array_elements(held) WITH ORDINALITY AS two (value, at) USING (at)
        ) AS row
    FROM frame, jsonb_array_elements(rows) WITH ORDINALITY AS held (held, place);

\set ON_ERROR_STOP on
BEGIN;
CREATE TEMPORARY TABLE line (held text) ON COMMIT DROP;
\copy line FROM pstdin WITH (FORMAT csv, DELIMITER E'\x02', QUOTE E'\x01')
-- PostgreSQL has no character 0 in a text: U+FFFD stands for it.
INSERT INTO frame
    SELECT it ->> 'host', (it ->> 'number')::bigint, it ->> 'name', it ->> 'mode', to_timestamp((it ->> 'moment')::bigint), it -> 'names', it -> 'rows'
    FROM (SELECT replace(held, '\u0000', '\ufffd')::jsonb AS it FROM line WHERE held ~ '^\{"frame":1,.*,"sha256":"[0-9a-f]{64}"\}$') AS lines
    ON CONFLICT DO NOTHING;
COMMIT;
