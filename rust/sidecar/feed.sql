-- The feed: withdrawals numbered 1, 2, 3, .. in the order in which they are committed, without gaps. Run once, in the database
-- of the withdrawals, by the role that is to own them.
--   balsa_withdrawer  may call balsa_feed.withdraw and nothing else
--   balsa_bench       may read: the role of the sidecars
CREATE EXTENSION IF NOT EXISTS balsa;
CREATE SCHEMA balsa_feed;

-- A text longer than a register's body cannot be held.
CREATE TABLE balsa_feed.withdrawal (
    number bigint PRIMARY KEY CHECK (number > 0),
    tag integer NOT NULL CHECK (tag BETWEEN 0 AND 65535),
    body balsa NOT NULL CHECK (octet_length(body::text) <= 4096),
    made timestamptz NOT NULL DEFAULT clock_timestamp()
);

-- Withdraws a text and hands back its number. The lock lasts until the commit, so that numbers are in the order of commits;
-- readers are not held up. The notice only wakes who listens.
CREATE FUNCTION balsa_feed.withdraw(withdrawn balsa, under integer) RETURNS bigint
LANGUAGE plpgsql SECURITY DEFINER SET search_path = pg_catalog, pg_temp AS $$
DECLARE
    given bigint;
BEGIN
    LOCK TABLE balsa_feed.withdrawal IN EXCLUSIVE MODE;
    INSERT INTO balsa_feed.withdrawal (number, tag, body)
        SELECT coalesce(max(w.number), 0) + 1, under, withdrawn FROM balsa_feed.withdrawal w
        RETURNING number INTO given;
    NOTIFY balsa_withdrawal;
    RETURN given;
END
$$;

-- Nothing is changed or taken back, by its owner neither.
CREATE FUNCTION balsa_feed.refuse() RETURNS trigger
LANGUAGE plpgsql SET search_path = pg_catalog, pg_temp AS $$
BEGIN
    RAISE EXCEPTION 'withdrawals are only added';
END
$$;
CREATE TRIGGER only_added BEFORE UPDATE OR DELETE OR TRUNCATE ON balsa_feed.withdrawal
    FOR EACH STATEMENT EXECUTE FUNCTION balsa_feed.refuse();

DO $$
BEGIN
    IF NOT EXISTS (SELECT FROM pg_roles WHERE rolname = 'balsa_withdrawer') THEN
        CREATE ROLE balsa_withdrawer NOLOGIN;
    END IF;
    IF NOT EXISTS (SELECT FROM pg_roles WHERE rolname = 'balsa_bench') THEN
        CREATE ROLE balsa_bench NOLOGIN;
    END IF;
END
$$;
REVOKE ALL ON balsa_feed.withdrawal FROM PUBLIC;
REVOKE ALL ON FUNCTION balsa_feed.withdraw(balsa, integer) FROM PUBLIC;
GRANT USAGE ON SCHEMA balsa_feed TO balsa_withdrawer, balsa_bench;
GRANT EXECUTE ON FUNCTION balsa_feed.withdraw(balsa, integer) TO balsa_withdrawer;
GRANT SELECT ON balsa_feed.withdrawal TO balsa_bench;
