"""The tables of the history, as PostgreSQL makes them."""

VERSION = 2  # the number in the table `version`: a newer one is refused
TABLES = '''
    CREATE SCHEMA IF NOT EXISTS ezmlm;
    SET LOCAL search_path TO ezmlm;
    CREATE TABLE IF NOT EXISTS version (number int NOT NULL);
    -- The lists by their folders' names: the next number, the first of which the item is kept, the floor, the last timed run and its day.
    -- `head` is the hash of the last item, `base` the one before the first that is kept. A copy that keeps no hash may be at `unhashed` at most.
    -- `epoch` counts how often an operator had the history go on from one host's copy.
    CREATE TABLE IF NOT EXISTS list (name text PRIMARY KEY, local bytea NOT NULL, host bytea NOT NULL, next bigint NOT NULL,
        first bigint NOT NULL, floor bigint NOT NULL, timed bigint NOT NULL, day bigint NOT NULL, head bytea NOT NULL, base bytea NOT NULL,
        unhashed bigint NOT NULL, epoch bigint NOT NULL DEFAULT 1);
    -- The items: when each came, of a timed run how many of the newest posts are compared after it, and the hash up to it.
    CREATE TABLE IF NOT EXISTS item (list text, number bigint, first bigint NOT NULL, back bigint, text bytea NOT NULL, hash bytea NOT NULL,
        PRIMARY KEY (list, number));
    -- The numbers of mails by their keys, and of items that operators gave, by the numbers that they gave them, with their answers.
    CREATE TABLE IF NOT EXISTS mail (list text, key bytea, number bigint NOT NULL, first bigint NOT NULL, PRIMARY KEY (list, key));
    CREATE INDEX IF NOT EXISTS mail_number ON mail (list, number);
    CREATE TABLE IF NOT EXISTS given (list text REFERENCES list, number bigint, theirs bigint NOT NULL, answer text, PRIMARY KEY (list, number));
    CREATE UNIQUE INDEX IF NOT EXISTS given_theirs ON given (list, theirs) WHERE theirs <> 0;
    CREATE INDEX IF NOT EXISTS given_open ON given (list, number) WHERE answer IS NULL;
    -- Configurations: each holds from the item of this number on.
    CREATE TABLE IF NOT EXISTS configuration (list text REFERENCES list, number bigint, text bytea NOT NULL, PRIMARY KEY (list, number));
    -- The copies of entries of the outgoing queue that were handed on.
    CREATE TABLE IF NOT EXISTS handed (list text, entry bigint, mark bytea, recipients bytea);
    CREATE INDEX IF NOT EXISTS handed_entry ON handed (list, entry);
    -- Where the hosts stand, by how many seconds their clocks are ahead, and since when the server runs at which they looked last; and the
    -- digests of what their lists were, each with the hash of the history at its place.
    CREATE TABLE IF NOT EXISTS host (list text REFERENCES list, host text, place bigint NOT NULL, seen bigint NOT NULL, key bytea,
        ahead bigint NOT NULL DEFAULT 0, server text NOT NULL DEFAULT '', PRIMARY KEY (list, host));
    CREATE TABLE IF NOT EXISTS digest (list text REFERENCES list, place bigint, host text, back bigint NOT NULL, digest bytea NOT NULL,
        moment bigint NOT NULL, hash bytea NOT NULL DEFAULT '', PRIMARY KEY (list, place, host));
    -- Why a host's copy can't go by the history (`refused`), or that it couldn't hand on (`stuck`).
    CREATE TABLE IF NOT EXISTS trouble (list text, host text, kind text, place bigint NOT NULL, why text NOT NULL, moment bigint NOT NULL,
        PRIMARY KEY (list, host, kind));
'''
# What version 1 lacks. The hashes of what is there are computed once, and each history begins with a value of its own. What an agent of version 1
# would put in meanwhile has no hash, and isn't taken.
FROM_1 = '''
    SET LOCAL search_path TO ezmlm;
    ALTER TABLE list ADD COLUMN head bytea, ADD COLUMN base bytea, ADD COLUMN unhashed bigint, ADD COLUMN epoch bigint NOT NULL DEFAULT 1;
    ALTER TABLE item ADD COLUMN hash bytea;
    ALTER TABLE host ADD COLUMN ahead bigint NOT NULL DEFAULT 0, ADD COLUMN server text NOT NULL DEFAULT '';
    ALTER TABLE digest ADD COLUMN hash bytea NOT NULL DEFAULT '';
    CREATE TABLE IF NOT EXISTS trouble (list text, host text, kind text, place bigint NOT NULL, why text NOT NULL, moment bigint NOT NULL,
        PRIMARY KEY (list, host, kind));
    UPDATE list SET base = sha256(convert_to(gen_random_uuid()::text, 'UTF8')), unhashed = next;
    DO $$
        DECLARE those record; one record; last bytea;
        BEGIN
            FOR those IN SELECT name, base FROM ezmlm.list LOOP
                last := those.base;
                FOR one IN SELECT number, text FROM ezmlm.item WHERE list = those.name ORDER BY number LOOP
                    last := sha256(last || one.text);
                    UPDATE ezmlm.item SET hash = last WHERE list = those.name AND number = one.number;
                END LOOP;
                UPDATE ezmlm.list SET head = last WHERE name = those.name;
            END LOOP;
        END
    $$;
    ALTER TABLE list ALTER COLUMN head SET NOT NULL, ALTER COLUMN base SET NOT NULL, ALTER COLUMN unhashed SET NOT NULL;
    ALTER TABLE item ALTER COLUMN hash SET NOT NULL;
'''
