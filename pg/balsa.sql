\echo Use "CREATE EXTENSION balsa" to load this file. \quit

-- The type: a text that reading accepts. Its bytes are kept as they are, and its order and equality are those of the bytes.
CREATE TYPE balsa;
CREATE FUNCTION balsa_in(cstring) RETURNS balsa AS 'MODULE_PATHNAME', 'pg_balsa_in' LANGUAGE C IMMUTABLE STRICT PARALLEL SAFE COST 30;
CREATE FUNCTION balsa_out(balsa) RETURNS cstring AS 'MODULE_PATHNAME', 'pg_balsa_out' LANGUAGE C IMMUTABLE STRICT PARALLEL SAFE;
CREATE FUNCTION balsa_recv(internal) RETURNS balsa AS 'MODULE_PATHNAME', 'pg_balsa_recv' LANGUAGE C IMMUTABLE STRICT PARALLEL SAFE COST 30;
CREATE FUNCTION balsa_send(balsa) RETURNS bytea AS 'MODULE_PATHNAME', 'pg_balsa_send' LANGUAGE C IMMUTABLE STRICT PARALLEL SAFE;
CREATE TYPE balsa (INPUT = balsa_in, OUTPUT = balsa_out, RECEIVE = balsa_recv, SEND = balsa_send, INTERNALLENGTH = VARIABLE, STORAGE = extended);

CREATE FUNCTION balsa(text) RETURNS balsa AS 'MODULE_PATHNAME', 'pg_balsa_of_text' LANGUAGE C IMMUTABLE STRICT PARALLEL SAFE COST 30;
CREATE CAST (text AS balsa) WITH FUNCTION balsa(text) AS ASSIGNMENT;
CREATE CAST (balsa AS text) WITHOUT FUNCTION AS IMPLICIT;

CREATE FUNCTION balsa_eq(balsa, balsa) RETURNS boolean AS 'MODULE_PATHNAME', 'pg_balsa_eq' LANGUAGE C IMMUTABLE STRICT PARALLEL SAFE LEAKPROOF;
CREATE FUNCTION balsa_ne(balsa, balsa) RETURNS boolean AS 'MODULE_PATHNAME', 'pg_balsa_ne' LANGUAGE C IMMUTABLE STRICT PARALLEL SAFE LEAKPROOF;
CREATE FUNCTION balsa_lt(balsa, balsa) RETURNS boolean AS 'MODULE_PATHNAME', 'pg_balsa_lt' LANGUAGE C IMMUTABLE STRICT PARALLEL SAFE LEAKPROOF;
CREATE FUNCTION balsa_le(balsa, balsa) RETURNS boolean AS 'MODULE_PATHNAME', 'pg_balsa_le' LANGUAGE C IMMUTABLE STRICT PARALLEL SAFE LEAKPROOF;
CREATE FUNCTION balsa_gt(balsa, balsa) RETURNS boolean AS 'MODULE_PATHNAME', 'pg_balsa_gt' LANGUAGE C IMMUTABLE STRICT PARALLEL SAFE LEAKPROOF;
CREATE FUNCTION balsa_ge(balsa, balsa) RETURNS boolean AS 'MODULE_PATHNAME', 'pg_balsa_ge' LANGUAGE C IMMUTABLE STRICT PARALLEL SAFE LEAKPROOF;
CREATE FUNCTION balsa_cmp(balsa, balsa) RETURNS integer AS 'MODULE_PATHNAME', 'pg_balsa_cmp' LANGUAGE C IMMUTABLE STRICT PARALLEL SAFE LEAKPROOF;
CREATE FUNCTION balsa_hash(balsa) RETURNS integer AS 'MODULE_PATHNAME', 'pg_balsa_hash' LANGUAGE C IMMUTABLE STRICT PARALLEL SAFE LEAKPROOF;
CREATE OPERATOR = (LEFTARG = balsa, RIGHTARG = balsa, FUNCTION = balsa_eq, COMMUTATOR = =, NEGATOR = <>, RESTRICT = eqsel, JOIN = eqjoinsel, HASHES, MERGES);
CREATE OPERATOR <> (LEFTARG = balsa, RIGHTARG = balsa, FUNCTION = balsa_ne, COMMUTATOR = <>, NEGATOR = =, RESTRICT = neqsel, JOIN = neqjoinsel);
CREATE OPERATOR < (LEFTARG = balsa, RIGHTARG = balsa, FUNCTION = balsa_lt, COMMUTATOR = >, NEGATOR = >=, RESTRICT = scalarltsel, JOIN = scalarltjoinsel);
CREATE OPERATOR <= (LEFTARG = balsa, RIGHTARG = balsa, FUNCTION = balsa_le, COMMUTATOR = >=, NEGATOR = >, RESTRICT = scalarlesel, JOIN = scalarlejoinsel);
CREATE OPERATOR > (LEFTARG = balsa, RIGHTARG = balsa, FUNCTION = balsa_gt, COMMUTATOR = <, NEGATOR = <=, RESTRICT = scalargtsel, JOIN = scalargtjoinsel);
CREATE OPERATOR >= (LEFTARG = balsa, RIGHTARG = balsa, FUNCTION = balsa_ge, COMMUTATOR = <=, NEGATOR = <, RESTRICT = scalargesel, JOIN = scalargejoinsel);
CREATE OPERATOR CLASS balsa_ops DEFAULT FOR TYPE balsa USING btree AS
    OPERATOR 1 <, OPERATOR 2 <=, OPERATOR 3 =, OPERATOR 4 >=, OPERATOR 5 >, FUNCTION 1 balsa_cmp(balsa, balsa);
CREATE OPERATOR CLASS balsa_hash_ops DEFAULT FOR TYPE balsa USING hash AS
    OPERATOR 1 =, FUNCTION 1 balsa_hash(balsa);

-- The calls. Each is bounded: one that cannot be interrupted must end soon.
CREATE FUNCTION balsa_check(text, OUT code integer, OUT place integer, OUT words text) AS 'MODULE_PATHNAME', 'pg_balsa_check' LANGUAGE C IMMUTABLE STRICT PARALLEL SAFE COST 30;
CREATE FUNCTION balsa_kekulized(text) RETURNS text AS 'MODULE_PATHNAME', 'pg_balsa_kekulized' LANGUAGE C IMMUTABLE STRICT PARALLEL SAFE COST 60;
CREATE FUNCTION balsa_key(text) RETURNS bigint AS 'MODULE_PATHNAME', 'pg_balsa_key' LANGUAGE C IMMUTABLE STRICT PARALLEL SAFE COST 60;
CREATE FUNCTION balsa_compared(text, text) RETURNS text AS 'MODULE_PATHNAME', 'pg_balsa_compared' LANGUAGE C IMMUTABLE STRICT PARALLEL SAFE COST 1000;
CREATE FUNCTION balsa_redrawn(text, text) RETURNS boolean AS 'MODULE_PATHNAME', 'pg_balsa_redrawn' LANGUAGE C IMMUTABLE STRICT PARALLEL SAFE COST 1000;
CREATE FUNCTION balsa_same(text, text) RETURNS boolean AS 'MODULE_PATHNAME', 'pg_balsa_same' LANGUAGE C IMMUTABLE STRICT PARALLEL SAFE COST 1000;
CREATE FUNCTION balsa_edition() RETURNS integer AS 'MODULE_PATHNAME', 'pg_balsa_edition' LANGUAGE C STABLE STRICT PARALLEL SAFE;

COMMENT ON TYPE balsa IS 'a Balsa text that reading accepts; = compares bytes';
COMMENT ON FUNCTION balsa_check(text) IS 'code 0, or the refusal''s code, its place in bytes where it has one, and its words';
COMMENT ON FUNCTION balsa_kekulized(text) IS 'the text with double bonds placed by the first matching';
COMMENT ON FUNCTION balsa_key(text) IS 'a number that all redrawings of a compound share; for an index';
COMMENT ON FUNCTION balsa_compared(text, text) IS 'the withdrawal check of the second text by the first: clear, redrawn or undecided';
COMMENT ON FUNCTION balsa_redrawn(text, text) IS 'whether the second text is a redrawing of the first, as the withdrawal check decides; an error where it cannot';
COMMENT ON FUNCTION balsa_same(text, text) IS 'whether two texts of at most 12 atoms are the same compound (no equivalence relation)';
COMMENT ON FUNCTION balsa_edition() IS 'the edition of the library';
