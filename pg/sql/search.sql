-- 30,000 texts: chains with a nitrogen and an oxygen at all places, and one drawing of o-xylene
CREATE TABLE shelf (id int GENERATED ALWAYS AS IDENTITY, text balsa NOT NULL);
INSERT INTO shelf (text) SELECT repeat('C', a) || 'N' || repeat('C', b) || 'O' || repeat('C', c)
    FROM generate_series(0, 29) a, generate_series(0, 39) b, generate_series(0, 24) c;
INSERT INTO shelf (text) VALUES ('CC1=C(C)C=CC=C1');
CREATE INDEX shelf_key ON shelf (balsa_key(text));
ANALYZE shelf;
-- one look in the index, and a comparison for each entry of that key
SET plan_cache_mode = force_generic_plan;
PREPARE among(text) AS SELECT id, text, balsa_compared(text, $1) FROM shelf WHERE balsa_key(text) = balsa_key($1) AND balsa_compared(text, $1) <> 'clear' ORDER BY id;
EXPLAIN (COSTS OFF) EXECUTE among('CC=1C(C)=CC=CC1');
EXECUTE among('CC=1C(C)=CC=CC1');
EXECUTE among('OCCNCC');
EXECUTE among('C1CC1');
-- a search passes over nothing that has the key
SELECT count(*) FROM shelf a JOIN shelf b ON balsa_key(a.text) = balsa_key(b.text) AND balsa_compared(a.text, b.text) = 'clear' WHERE a.id % 500 = 0;
-- workers read too
SET max_parallel_workers_per_gather = 2;
SET parallel_setup_cost = 0;
SET parallel_tuple_cost = 0;
SET min_parallel_table_scan_size = 0;
EXPLAIN (COSTS OFF) SELECT count(balsa_kekulized(text)) FROM shelf;
SELECT count(balsa_kekulized(text)) FROM shelf;
RESET ALL;
-- an extension of another edition is not used, and its update builds the indexes anew
SELECT relfilenode AS before FROM pg_class WHERE relname = 'shelf_key' \gset
UPDATE pg_extension SET extversion = 'earlier' WHERE extname = 'balsa';
DO $$
BEGIN
    PERFORM balsa_key('C');
    RAISE 'an extension of another edition was used';
EXCEPTION WHEN object_not_in_prerequisite_state THEN
    RAISE NOTICE 'refused';
END
$$;
ALTER EXTENSION balsa UPDATE;
SELECT relfilenode <> :before AS rebuilt FROM pg_class WHERE relname = 'shelf_key';
SELECT balsa_edition() = extversion::int FROM pg_extension WHERE extname = 'balsa';
EXECUTE among('OCCNCC');
DROP TABLE shelf;
