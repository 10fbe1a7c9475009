\pset null NULL
CREATE EXTENSION balsa;
-- what reading says
SELECT * FROM balsa_check('c1ccccc1');
SELECT * FROM balsa_check('C11');
SELECT * FROM balsa_check('cc');
SELECT t, (balsa_check(t)).* FROM unnest(ARRAY['', 'C(', 'F/C=C/F', 'c1cccc1', repeat('C', 1001)]) AS t WHERE length(t) < 20;
SELECT (balsa_check(repeat('C', 1001))).*, (balsa_check(repeat('C', 16385))).code;
-- a refusal is an error with its code, its place and a caret
SELECT balsa_kekulized('c1ccccc1C2');
SELECT balsa_kekulized('CC(C)(C');
SELECT balsa_kekulized(repeat('CCN(C)', 20) || '$' || repeat('CO', 60));
SELECT balsa_kekulized('c1cccc1');
SELECT balsa_kekulized('c1ccccc1'), balsa_kekulized('N[C@@H](Cc1ccccc1)C(=O)O'), balsa_kekulized(''), balsa_kekulized(NULL);
-- the type
SELECT 'o1cccc1'::balsa, 'c1ccccc1'::text::balsa;
SELECT 'C11'::text::balsa;
SELECT 'C11'::balsa;
CREATE TABLE stock (id int PRIMARY KEY, text balsa NOT NULL);
INSERT INTO stock VALUES (1, 'c1ccccc1'), (2, 'C1=CC=CC=C1'), (3, 'OC=1C=CC=CC1'), (4, 'CC1=C(C)C=CC=C1'), (5, 'CC=1C(C)=CC=CC1');
INSERT INTO stock VALUES (6, 'C%1');
-- its equality is that of the bytes
SELECT a.id, b.id FROM stock a JOIN stock b ON a.text = b.text AND a.id < b.id;
SELECT id FROM stock WHERE text = 'C1=CC=CC=C1';
SELECT text FROM stock ORDER BY text;
SELECT count(DISTINCT text) FROM stock;
SELECT length(text), text::text || 'C' FROM stock WHERE id = 1;
-- redrawings have one key
SELECT count(*), count(DISTINCT balsa_key(text)) FROM stock;
SELECT balsa_key('c1ccccc1') = balsa_key('C=1C=CC=CC1'), balsa_key('CCO') = balsa_key('COC');
SELECT balsa_key('C11');
-- the withdrawal check's comparison
SELECT balsa_redrawn('c1ccccc1', 'C=1C=CC=CC1'), balsa_redrawn('CC1=C(C)C=CC=C1', 'CC=1C(C)=CC=CC1'), balsa_redrawn('CCO', 'OCC'), balsa_redrawn('CCO', 'COC');
-- two that have one key and are no redrawings are not decided
SELECT a, b, balsa_key(a) = balsa_key(b) AS one_key, balsa_compared(a, b) FROM (VALUES ('CCO', 'OCC'), ('CCO', 'COC'),
    (repeat('C', 20) || 'N' || repeat('C', 40) || 'O', repeat('C', 19) || 'N' || repeat('C', 41) || 'O')) AS pairs (a, b);
SELECT balsa_redrawn(repeat('C', 20) || 'N' || repeat('C', 40) || 'O', repeat('C', 19) || 'N' || repeat('C', 41) || 'O');
SELECT balsa_redrawn('CCO', 'C11');
SELECT balsa_redrawn('C(', 'CCO');
SELECT balsa_redrawn(repeat('[CH3]', 1000), 'C');
-- the same compound: no equivalence, and only small texts
SELECT balsa_same('Cc1c(C)cccc1', 'CC1=C(C)C=CC=C1'), balsa_same('Cc1c(C)cccc1', 'CC=1C(C)=CC=CC1'), balsa_same('CC1=C(C)C=CC=C1', 'CC=1C(C)=CC=CC1');
SELECT balsa_same('CCCCCCCCCCCCC', 'C');
-- the worst of the known pairs at that size ends at once
SET statement_timeout = '5s';
SELECT balsa_same('C1(.*.*.*.*.*.*.*)=PC=C1', 'C1(.*.*.*.*.*.*.*)P=CC=1');
RESET statement_timeout;
-- in binary and back
CREATE TABLE copied (LIKE stock);
\copy (SELECT * FROM stock) TO 'results/stock.bin' (FORMAT binary)
\copy copied FROM 'results/stock.bin' (FORMAT binary)
SELECT count(*) FROM stock JOIN copied USING (id, text);
SELECT provolatile, proparallel, count(*) FROM pg_proc WHERE proname LIKE 'balsa%' AND prolang = (SELECT oid FROM pg_language WHERE lanname = 'c') GROUP BY 1, 2 ORDER BY 1;
DROP TABLE stock, copied;
