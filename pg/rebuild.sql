\echo Use "ALTER EXTENSION balsa UPDATE" to load this file. \quit
-- An edition changes answers: every index that rests on this extension is built anew. Stored generated columns,
-- materialized views and texts copied out of answers are the owner's to renew.
DO $$
DECLARE
    found regclass;
BEGIN
    FOR found IN
        SELECT DISTINCT x.indexrelid::regclass
        FROM pg_extension e
        JOIN pg_depend member ON member.refclassid = 'pg_extension'::regclass AND member.refobjid = e.oid AND member.deptype = 'e'
        JOIN pg_depend use ON use.refclassid = member.classid AND use.refobjid = member.objid AND use.classid = 'pg_class'::regclass
        JOIN pg_index x ON x.indexrelid = use.objid
        WHERE e.extname = 'balsa'
    LOOP
        EXECUTE format('REINDEX INDEX %s', found);
    END LOOP;
END
$$;
