-- The rows of the batches that a store has and no collector has acknowledged: result lines that a kill or `| head` lost are among them.
--   sqlite3 -readonly -json kept.db < kept_rows.sql
SELECT batch.number, run.name, datetime(batch.moment, 'unixepoch') AS moment, row.value AS "row"
FROM batch JOIN run ON run.place = batch.run JOIN batch_part ON batch_part.number = batch.number, json_each(batch_part.rows) AS row
ORDER BY batch.number, batch_part.place, row.id;
