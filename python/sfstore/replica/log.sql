-- The log of one store: one list of the lines that edit it, in one order. A superuser runs this once in a database of
-- its own, in one transaction; docs/use/REPLICAS.md of the project says what it promises.
--
-- sfstore_reader follows the log, sfstore_editor also appends lines, sfstore_replica also puts down the sums of its
-- files. sfstore_owner cuts the log and drops what stands before a cut. Logins are made members of these.

DO $$
DECLARE wanted text;
BEGIN
  FOREACH wanted IN ARRAY ARRAY['sfstore_owner', 'sfstore_reader', 'sfstore_editor', 'sfstore_replica'] LOOP
    IF NOT EXISTS (SELECT FROM pg_roles WHERE rolname = wanted) THEN
      EXECUTE format('CREATE ROLE %I NOLOGIN', wanted);
    END IF;
  END LOOP;
END $$;
GRANT sfstore_reader TO sfstore_editor, sfstore_replica, sfstore_owner;
-- How far each standby is, for `is_kept`.
GRANT pg_read_all_stats TO sfstore_owner;

CREATE SCHEMA sfstore AUTHORIZATION sfstore_owner;
SET LOCAL ROLE sfstore_owner;
GRANT USAGE ON SCHEMA sfstore TO sfstore_reader;

-- The number by which the store knows the editor of each login.
CREATE TABLE sfstore.editors (
  login name PRIMARY KEY,
  number smallint NOT NULL UNIQUE CHECK (number BETWEEN 1 AND 255)
);

-- One row. Its lock makes one order without gaps.
CREATE TABLE sfstore.head (
  one bool PRIMARY KEY DEFAULT true CHECK (one),
  at bigint NOT NULL,              -- the last place
  chain bytea NOT NULL,            -- the chain there
  start bytea NOT NULL,            -- the chain before the first place: of this log alone
  standbys smallint NOT NULL CHECK (standbys >= 0)  -- how many standbys have a line before a replica applies it
);

-- Whether a text is a group of edits of features: its head, and as many members as that says, with carriage returns
-- between them. Each member is a line that may be one.
CREATE FUNCTION sfstore.is_group(line text) RETURNS bool LANGUAGE sql IMMUTABLE AS $$
  SELECT CASE WHEN octet_length(line) <= 16000000 AND line ~ '^[ \t]*together[ \t]+[0-9]{1,10}[ \t]*\r' THEN (
    SELECT count(*) FILTER (WHERE part ~ '^[ \t]*(add|addhex|delete|replace|vertex|set|unset)([ \t]|$)') = count(*)
      AND count(*) = substring(line FROM '[0-9]+')::bigint AND count(*) BETWEEN 1 AND 65535
    FROM unnest((string_to_array(line, E'\r'))[2:]) AS part
  ) ELSE false END
$$;

-- Whether a line is one that edits a store, or a group of such. The console takes 4,194,304 bytes of a line; `@255 ` goes
-- before it.
CREATE FUNCTION sfstore.is_edit(line text) RETURNS bool LANGUAGE sql IMMUTABLE AS $$
  SELECT position(E'\n' IN line) = 0 AND (sfstore.is_group(line) OR octet_length(line) <= 4194299
    AND line ~ '^[ \t]*(layer|column|add|addhex|delete|replace|vertex|set|unset|rule|undo|redo)([ \t]|\r?$)')
$$;

CREATE TABLE sfstore.log (
  at bigint PRIMARY KEY,
  key uuid NOT NULL UNIQUE,        -- by which a line that is tried again is found
  editor smallint NOT NULL,        -- 0 for a cut
  cut bool NOT NULL,
  line text NOT NULL,              -- without its editor, or a group; empty for a cut
  put_down timestamptz NOT NULL DEFAULT clock_timestamp(),
  chain bytea NOT NULL,            -- SHA-256 of the chain before, and of editor, cut and line
  CHECK (CASE WHEN cut THEN editor = 0 AND line = '' ELSE editor BETWEEN 1 AND 255 AND sfstore.is_edit(line) END)
);

-- The cuts, also those whose entry was dropped, and what the file of each replica was there.
CREATE TABLE sfstore.cuts (
  at bigint PRIMARY KEY,
  chain bytea NOT NULL,
  put_down timestamptz NOT NULL DEFAULT clock_timestamp()
);
CREATE TABLE sfstore.sums (
  at bigint REFERENCES sfstore.cuts,
  replica name,
  sum text NOT NULL CHECK (sum ~ '^[0-9a-f]{64}$'),
  PRIMARY KEY (at, replica)
);

-- The first place that was not dropped.
CREATE FUNCTION sfstore.first() RETURNS bigint LANGUAGE sql VOLATILE SET search_path = pg_catalog, pg_temp AS $$
  SELECT coalesce((SELECT min(at) FROM sfstore.log), (SELECT at + 1 FROM sfstore.head))
$$;

-- The place behind which the line of a key is searched; none of a key that does not say it.
CREATE FUNCTION sfstore.tried_since(key uuid) RETURNS bigint LANGUAGE sql IMMUTABLE SET search_path = pg_catalog, pg_temp AS $$
  SELECT CASE WHEN substr(hex, 13, 1) = '8' THEN ('x' || left(hex, 12))::bit(48)::bigint END
  FROM (SELECT replace(key::text, '-', '') AS hex) AS given
$$;

-- Puts lines down as one, and gives the place of each. Those that were tried before are looked for where that is said;
-- else it is a violation of their keys.
CREATE FUNCTION sfstore.put_down(keys uuid[], lines text[], number int, is_cut bool, tried_before bool) RETURNS bigint[]
LANGUAGE plpgsql SET search_path = pg_catalog, pg_temp AS $$
DECLARE
  last sfstore.head;
  old sfstore.log;
  wanted record;
  places bigint[] := '{}';
  chains bytea[] := '{}';
BEGIN
  SELECT * INTO last FROM sfstore.head FOR UPDATE;
  -- Behind the lock, in a statement of its own: it sees what was dropped while the lock was waited for.
  IF NOT is_cut AND (SELECT min(sfstore.tried_since(key)) FROM unnest(keys) AS key) < sfstore.first() - 1 THEN
    RAISE 'the log was dropped since the lines were tried first' USING ERRCODE = 'SF106';
  END IF;
  FOR wanted IN SELECT * FROM unnest(keys, lines) WITH ORDINALITY AS given (key, line, nth) ORDER BY nth LOOP
    IF tried_before THEN
      SELECT * INTO old FROM sfstore.log WHERE key = wanted.key;
    END IF;
    IF old.at IS NULL THEN
      last.at := last.at + 1;
      last.chain := sha256(last.chain || convert_to(format('%s %s %s', number, is_cut::int, wanted.line), 'UTF8'));
      places := places || last.at;
      chains := chains || last.chain;
    ELSIF (old.editor, old.cut, old.line) = (number, is_cut, wanted.line) THEN
      places := places || old.at;
      chains := chains || NULL::bytea;
    ELSE
      RAISE 'the key % is that of another line', wanted.key USING ERRCODE = 'SF103';
    END IF;
  END LOOP;
  INSERT INTO sfstore.log (at, key, editor, cut, line, chain)
    SELECT given.at, given.key, number, is_cut, given.line, given.chain
    FROM unnest(places, keys, lines, chains) AS given (at, key, line, chain) WHERE given.chain IS NOT NULL;
  UPDATE sfstore.head SET at = last.at, chain = last.chain;
  NOTIFY sfstore_log;
  RETURN places;
END $$;

-- Puts lines down as one, each once however often it is tried, and gives the place of each.
CREATE FUNCTION sfstore.put(keys uuid[], lines text[], number int, is_cut bool) RETURNS bigint[]
LANGUAGE plpgsql SET search_path = pg_catalog, pg_temp AS $$
BEGIN
  IF cardinality(keys) <> cardinality(lines) THEN
    RAISE 'as many keys as lines are wanted';
  END IF;
  IF current_setting('synchronous_commit') IN ('off', 'local', 'remote_write') THEN
    PERFORM set_config('synchronous_commit', 'on', true);
  END IF;
  -- A transaction that is left open holds all others up.
  PERFORM set_config('idle_in_transaction_session_timeout', '5s', true);
  BEGIN
    RETURN sfstore.put_down(keys, lines, number, is_cut, false);
  EXCEPTION WHEN unique_violation THEN
    RETURN sfstore.put_down(keys, lines, number, is_cut, true);
  END;
END $$;

-- The editor's number of whoever asks; none where the login is no editor.
CREATE FUNCTION sfstore.own_number() RETURNS smallint
LANGUAGE sql STABLE SECURITY DEFINER SET search_path = pg_catalog, pg_temp AS $$
  SELECT number FROM sfstore.editors WHERE login = session_user
$$;

-- Appends lines of the login's own editor. A line may name that editor; one that names another is refused.
CREATE FUNCTION sfstore.append(keys uuid[], lines text[]) RETURNS bigint[]
LANGUAGE plpgsql SECURITY DEFINER SET search_path = pg_catalog, pg_temp AS $$
DECLARE
  own int := sfstore.own_number();
  bare text[] := '{}';
  line text;
BEGIN
  IF own IS NULL THEN
    RAISE 'the login % is no editor', session_user USING ERRCODE = 'SF102';
  END IF;
  FOREACH line IN ARRAY lines LOOP
    IF line ~ '^[ \t]*@' THEN
      line := regexp_replace(line, format('^[ \t]*@0{0,%s}%s[ \t]+', 3 - length(own::text), own), '');
      IF line ~ '^[ \t]*@' THEN
        RAISE 'a line names another editor than %', own USING ERRCODE = 'SF101';
      END IF;
    END IF;
    bare := bare || line;
  END LOOP;
  RETURN sfstore.put(keys, bare, own, false);
END $$;

-- Puts down a cut: every replica saves and loads its store there, and nobody can undo what stands before.
CREATE FUNCTION sfstore.cut(key uuid) RETURNS bigint
LANGUAGE plpgsql SET search_path = pg_catalog, pg_temp AS $$
DECLARE
  place bigint := (sfstore.put(ARRAY[key], ARRAY[''], 0, true))[1];
BEGIN
  INSERT INTO sfstore.cuts (at, chain) SELECT at, chain FROM sfstore.log WHERE at = place ON CONFLICT DO NOTHING;
  RETURN place;
END $$;

-- Puts down the sum of this replica's file at a cut, once: another sum behind it is refused, since it would tell of a
-- file that was changed, or of a login that says now this and now that.
CREATE FUNCTION sfstore.put_sum(place bigint, file text) RETURNS void
LANGUAGE plpgsql SECURITY DEFINER SET search_path = pg_catalog, pg_temp AS $$
BEGIN
  INSERT INTO sfstore.sums (at, replica, sum) VALUES (place, session_user, file) ON CONFLICT (at, replica) DO NOTHING;
  IF FOUND THEN
    NOTIFY sfstore_log;
  ELSIF EXISTS (SELECT FROM sfstore.sums WHERE at = place AND replica = session_user AND sum <> file) THEN
    RAISE '% has put down another file for the cut % before', session_user, place USING ERRCODE = 'SF105';
  END IF;
END $$;

-- Drops all up to a cut where so many replicas have the same file, and none another one. The cut has to be older than
-- anyone goes on trying a line, since its key is dropped too. Tells how many entries were dropped.
CREATE FUNCTION sfstore.drop_before(place bigint, replicas int, age interval DEFAULT '1 hour') RETURNS bigint
LANGUAGE plpgsql SET search_path = pg_catalog, pg_temp AS $$
DECLARE
  alike int;
  files int;
  dropped bigint;
  gone bigint[];
BEGIN
  -- Whoever writes meanwhile finds a key, or that it was dropped: the head is written too, so that nobody goes on from before.
  UPDATE sfstore.head SET standbys = standbys;
  SELECT count(*), count(DISTINCT sum) INTO alike, files FROM sfstore.sums WHERE at = place;
  IF alike < replicas OR files <> 1 THEN
    RAISE 'at the cut % stand % different files of % replicas; one file of % is wanted', place, files, alike, replicas
      USING ERRCODE = 'SF104';
  END IF;
  IF (SELECT put_down FROM sfstore.cuts WHERE at = place) > clock_timestamp() - age THEN
    RAISE 'the cut % is not older than %', place, age USING ERRCODE = 'SF104';
  END IF;
  DELETE FROM sfstore.log WHERE at <= place;
  GET DIAGNOSTICS dropped = ROW_COUNT;
  -- A cut for which somebody is just putting a sum down stays until the next time: everybody would wait for them here.
  gone := ARRAY(SELECT at FROM sfstore.cuts WHERE at < place FOR UPDATE SKIP LOCKED);
  DELETE FROM sfstore.sums WHERE at = ANY (gone);
  DELETE FROM sfstore.cuts WHERE at = ANY (gone);
  RETURN dropped;
END $$;

-- The entries behind a place, at most 2,000 of them, and of 4 MB in all but for one entry. Each row has where the
-- server's write-ahead log ended after the entries were seen: so far it has to be kept before any of them is applied.
CREATE FUNCTION sfstore.behind(place bigint)
RETURNS TABLE (at bigint, key uuid, editor smallint, cut bool, line text, chain bytea, goal pg_lsn)
LANGUAGE sql VOLATILE SET search_path = pg_catalog, pg_temp AS $$
  SELECT e.at, e.key, e.editor, e.cut, e.line, e.chain, pg_current_wal_insert_lsn()
  FROM (
    SELECT *, sum(octet_length(l.line)) OVER (ORDER BY l.at) - octet_length(l.line) AS before
    FROM (SELECT * FROM sfstore.log WHERE log.at > place ORDER BY log.at LIMIT 2000) l
  ) e
  WHERE e.before < 4000000 ORDER BY e.at
$$;

-- How many standbys that commits wait for have all up to a point on their disks, and how many are wanted.
CREATE FUNCTION sfstore.kept(goal pg_lsn, OUT kept int, OUT wanted int)
LANGUAGE sql VOLATILE SECURITY DEFINER SET search_path = pg_catalog, pg_temp AS $$
  SELECT (SELECT count(*) FROM pg_stat_get_wal_senders() WHERE sync_state IN ('sync', 'quorum') AND flush_lsn >= goal),
    (SELECT standbys FROM sfstore.head)
$$;

REVOKE ALL ON ALL FUNCTIONS IN SCHEMA sfstore FROM PUBLIC;
GRANT SELECT ON sfstore.editors, sfstore.head, sfstore.log, sfstore.cuts, sfstore.sums TO sfstore_reader;
GRANT EXECUTE ON FUNCTION sfstore.behind, sfstore.kept, sfstore.own_number TO sfstore_reader;
GRANT EXECUTE ON FUNCTION sfstore.append TO sfstore_editor;
GRANT EXECUTE ON FUNCTION sfstore.put_sum TO sfstore_replica;
RESET ROLE;
