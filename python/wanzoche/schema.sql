-- Logs of paths in PostgreSQL (14 or later): what the package makes in a database when a log is opened there for the first time, or when
-- the schema there has an earlier number. By hand, for both:
--
--     psql -d DATABASE -1 -f schema.sql
--
-- Who writes here keeps these rules; docs/machines.md says why.
--
--   * A log has lines at the places 0, 1, 2, .., none left out. A line is one of a journal without its mark, as `3 start read: started 7`.
--     It may only be appended, and only if it is owed by all lines before it. Each reader checks that, and refuses to go on otherwise.
--   * A line is a row of wanzoche.line, or one of the lines in the text of a row of wanzoche.segment, and never both. The first lines are
--     in segments, in their order; the last line is a row. Only `rotate` moves lines. Who finds its next line moved (WZ003) reads segments.
--   * A worker is a number that `arrive` gives, and none is given twice. It appends by the session alone that its row names (`arrive`,
--     `hold`): so a worker whose session is gone appends nothing.
--   * Each call is one transaction and may be repeated. Only `arrive` uses a number up each time.
--   * A session that appends may do so with `synchronous_commit` off, so that it keeps nobody waiting while the disk writes. Who has to
--     know that a line lasts commits another transaction behind it with `synchronous_commit` on, which has to write something, as
--     `select pg_logical_emit_message(true, 'wanzoche', '')`, and tells nobody before.
--   * Transactions are `read committed`. A finish that goes wherever its place is, by `append` or `bury`, is only asked for by who has read
--     all up to line n - 1, and gives this n: if the finish may be in a segment by then, WZ003 says so.
--   * A start may go behind lines that its starter hasn't read, if none of them touches one of its paths: `start` says how. It is owed there,
--     with a number that is higher by the starts among them.
--   * One line may also be appended by a statement, but for the first of a log. No row is returned if it wasn't:
--
--     insert into wanzoche.line (log, place, line, by) select :log, :place, :line, :worker
--         from (select from wanzoche.turn where log = :log for update) turn
--         where (select x.place = :place - 1 and x.stamp = :known from wanzoche.line x where x.log = :log order by x.place desc limit 1)
--         on conflict do nothing returning stamp, wanzoche.wake(:log, :worker, :operations)
--
--     It looks for the last line as the log was before it waited for its turn. If others have appended meanwhile, the row at its place
--     is in its way: `rotate` leaves that where it is.
--   * A start keeps to the order of those who wait (docs/waiting.md). Who waits has a row of wanzoche.waiter. A start that isn't appended
--     in a turn, where all of them are known, names the tickets of those that it knows of and may pass: it isn't appended while a row with
--     another ticket stands before it, for an operation that shares a path with its own, whose door is shut.
--   * A notification may have lines in it, and who waits (`notify`). Who takes them over does so as with any line, only if they are owed; and
--     whatever it appends behind them is only appended if they are the log's, since each call names the stamp of the last that it knows.
--
-- Whoever may connect to a database may take any advisory lock there, and send any notification. So neither of them says anything here:
--
--   * Whoever appends or moves lines has the row of its log in wanzoche.turn, to the end of the transaction: only who has rights to that
--     table can lock a row of it. Behind it come rows of wanzoche.waiter and wanzoche.waiting, and before it those of wanzoche.worker.
--   * A worker's session is one of the process and of the role that its row names, and has the advisory lock that its row names, a number
--     that nobody could guess before. Another who has that lock, too, is of another role or another process.
--   * A worker is notified by a channel that only its row names, and that nobody but those who append may read there. It looks by itself
--     each second, too.
--
-- Nothing here is looked for in a schema in which others may make functions or operators: each function has its own search_path, or was
-- read under this one when it was made. A session sets it, too, before it calls anything.

set local search_path = pg_catalog, pg_temp;

do $$ begin
    if current_setting('search_path') <> 'pg_catalog, pg_temp' then
        raise exception 'run this in one transaction, as by `psql -1 -f schema.sql`';
    end if;
    if not exists (select from pg_namespace where nspname = 'wanzoche') then
        create schema wanzoche;
        create table wanzoche.schema (number int not null);
        insert into wanzoche.schema values (6);
    elsif (select number from wanzoche.schema) > 6 then
        raise exception 'the schema wanzoche is number %, and this makes 6', (select number from wanzoche.schema);
    end if;
    update wanzoche.schema set number = 6;
end $$;

create table if not exists wanzoche.log (
    log int generated always as identity primary key check (log < 1048576),
    name text not null unique,
    declaration text not null,
    workers int not null default 0 check (workers < 268435456),  -- the last number that was given
    -- What whoever opens the log keeps to. Null until somebody has opened it whose package knows these.
    lost text check (lost in ('finish', 'keep')),  -- what becomes of what a dead worker has in progress
    grace float8 check (grace >= 0),  -- so many seconds a worker may be without a session
    room int check (room > 0)  -- so many lines go into a segment
);
alter table wanzoche.log add column if not exists lost text check (lost in ('finish', 'keep'));
alter table wanzoche.log add column if not exists grace float8 check (grace >= 0);
alter table wanzoche.log add column if not exists room int check (room > 0);

create table if not exists wanzoche.line (
    log int not null,
    place bigint not null,
    line text not null,
    by int not null,  -- who appended it: for a dead worker another does
    stamp bigint not null default (random() * 9007199254740991)::bigint,  -- tells this line from one that stood here before a crash
    finishes bigint generated always as (substring(line from '^\d+ finish (\d+): finished$')::bigint) stored,
    primary key (log, place)
);
create unique index if not exists line_finishes on wanzoche.line (log, finishes) where finishes is not null;

-- Lines that were moved out of wanzoche.line: as many as it says, from this place on.
create table if not exists wanzoche.segment (
    log int not null,
    segment int not null check (segment > 0),  -- 1, 2, .. in the order of the lines
    place bigint not null,
    lines int not null check (lines > 0),
    text text not null,  -- the lines, with a line feed between two
    stamp bigint not null,  -- that of the last
    stamps bigint[] not null,  -- those of all, for who comes back and knows one of them
    buried bigint[] not null,  -- the activations that another than their worker has finished here
    primary key (log, segment),
    unique (log, place)
);
alter table wanzoche.segment alter stamps set storage external;  -- they are random, and don't get smaller

create table if not exists wanzoche.worker (
    log int not null,
    worker int not null,
    process text,  -- for whoever asks who that is: the number of its process, and its machine
    gone timestamptz,  -- when somebody first saw its lock free
    is_over boolean not null default false,  -- it never comes back, and others may finish what it has in progress, as if it had no row
    knows int not null default 1,  -- the number of the schema that its package knows: with 1 it reads no segments
    may_be_gone interval,  -- for so long it may be without a session: its grace; null if its package knows a number below 3
    primary key (log, worker)
);
alter table wanzoche.worker add column if not exists knows int not null default 1;
alter table wanzoche.worker add column if not exists may_be_gone interval;
create index if not exists worker_older on wanzoche.worker (log) where knows < 2 and not is_over;

-- Its session; all null for a package of a number below 4.
alter table wanzoche.worker add column if not exists pid int;  -- the number of the server's process
alter table wanzoche.worker add column if not exists role oid;  -- who has begun it
alter table wanzoche.worker add column if not exists lock bigint;  -- an advisory lock that it holds
alter table wanzoche.worker add column if not exists channel text;  -- by which it is notified
delete from wanzoche.worker where is_over;

-- A row for each log: who has locked it appends, or moves lines.
create table if not exists wanzoche.turn (log int primary key);
insert into wanzoche.turn select log from wanzoche.log on conflict do nothing;

-- Who waits: a row for each thread or task of a worker that does, which has this slot of the worker; null in `since` if the slot is free.
-- After a crash nobody waits: each says so again.
create unlogged table if not exists wanzoche.waiter (
    log int not null,
    worker int not null,
    slot int not null,
    operation int not null,
    priority bigint not null,  -- who has a higher one stands before all of a lower one
    ticket bigint not null generated by default as identity,  -- and who has a lower one, before those of the same priority
    since timestamptz,
    shuts timestamptz not null,  -- from then on starts that stand in its way are withheld for it
    holds bigint[] not null,  -- the activations that it has in progress
    -- Null if its package knows a number below 6:
    reads bigint,  -- its process knows all lines before this place
    told text,  -- what `who_waits` says of it, behind its ticket and whether it is alive
    primary key (log, worker, slot)
) with (fillfactor = 50);
alter table wanzoche.waiter add column if not exists reads bigint;
alter table wanzoche.waiter add column if not exists told text;

-- The same of packages of a number below 5, whose workers stand in no order: for which operation one waits, and since when.
create unlogged table if not exists wanzoche.waiting (
    log int not null,
    operation int not null,
    worker int not null,
    since timestamptz,
    primary key (log, operation, worker)
) with (fillfactor = 50);

-- Whoever may use the lines may use the segments, take a turn, and wait.
do $$ declare x record; begin
    for x in select y.grantee, y.privilege_type from pg_class c, aclexplode(c.relacl) y
        where c.oid = 'wanzoche.line'::regclass and y.grantee <> c.relowner
    loop
        execute format('grant %s on wanzoche.segment, wanzoche.turn, wanzoche.waiter to %s', x.privilege_type,
            case x.grantee when 0 then 'public' else x.grantee::regrole::text end);
    end loop;
end $$;

-- Of earlier numbers, with fewer parameters: who calls them so gets those below.
drop function if exists wanzoche.open(text, text);
drop function if exists wanzoche.arrive(int, text);
drop function if exists wanzoche.arrive(int, text, int);
drop function if exists wanzoche.bury(int, int, int, bigint[], int[], interval, boolean);
drop function if exists wanzoche.append(int, int, bigint, bigint, text, bigint[], int[], int[], int[], boolean);

-- The advisory lock of a worker whose package is of a number below 4.
create or replace function wanzoche.old_key(l int, w int) returns bigint language sql immutable
return (22391::bigint << 48) | (l::bigint << 28) | w;

-- What such packages call where they take a lock before they append: they get their turn, too.
create or replace function wanzoche.key(l int, w int) returns bigint
language plpgsql set search_path = pg_catalog, pg_temp as $$
begin
    if w = 0 then
        perform from wanzoche.turn x where x.log = l for update;
    end if;
    return wanzoche.old_key(l, w);
end $$;

-- Those of these workers that have a session; of all workers, for null.
create or replace function wanzoche.with_session(l int, workers int[]) returns int[]
language plpgsql set search_path = pg_catalog, pg_temp as $$
begin
    perform pg_stat_clear_snapshot();  -- or what this transaction has seen before would still be there
    return array(select distinct x.worker from wanzoche.worker x
        join pg_locks y on (y.classid::bigint << 32) | y.objid::bigint = coalesce(x.lock, wanzoche.old_key(x.log, x.worker))
        where x.log = l and (workers is null or x.worker = any (workers))
            and y.locktype = 'advisory' and y.objsubid = 1 and y.granted
            and y.database = (select d.oid from pg_database d where d.datname = current_database())
            and (x.lock is null
                or y.pid = x.pid and exists (select from pg_stat_get_activity(x.pid) z where z.usesysid = x.role)));
end $$;

-- From now on this session is the worker's, whose row the caller has locked.
create or replace function wanzoche.begin_session(l int, w int) returns void
language plpgsql set search_path = pg_catalog, pg_temp as $$
declare own bigint;
begin
    loop
        own := (22391::bigint << 48) | floor(random() * 281474976710656)::bigint;
        exit when pg_try_advisory_lock(own);
    end loop;
    update wanzoche.worker x set gone = null, pid = pg_backend_pid(), lock = own,
        role = (select y.usesysid from pg_stat_get_activity(pg_backend_pid()) y),
        channel = 'wanzoche_' || replace(gen_random_uuid()::text, '-', '')
        where x.log = l and x.worker = w;
end $$;

-- The log of this name, which is made if there is none. What it has is returned: what was given is written if it has nothing yet.
create or replace function wanzoche.open(called text, declared text, wanted_lost text, wanted_grace float8, wanted_room int,
    out l int, out declaration text, out lost text, out grace float8, out room int)
language plpgsql set search_path = pg_catalog, pg_temp as $$
begin
    for attempt in 1..2 loop
        select x.log, x.declaration, x.lost, x.grace, x.room into l, declaration, lost, grace, room from wanzoche.log x
            where x.name = called;
        if attempt = 2 or lost is not null or declaration <> declared then
            return;
        end if;
        insert into wanzoche.log as x (name, declaration, lost, grace, room)
            values (called, declared, wanted_lost, wanted_grace, wanted_room)
            on conflict (name) do update set lost = excluded.lost, grace = excluded.grace, room = excluded.room where x.lost is null
            returning log into l;
        if found then
            insert into wanzoche.turn values (l) on conflict do nothing;
        end if;
    end loop;
end $$;

-- A new worker, whose session this is, and whose package knows the schema of this number. Null if the log was removed.
create or replace function wanzoche.arrive(l int, process text, knows int default 1, grace interval default null) returns int
language plpgsql set search_path = pg_catalog, pg_temp as $$
declare w int;
begin
    update wanzoche.log set workers = workers + 1 where log = l returning workers into w;
    if w is null then
        return null;
    end if;
    if knows < 2 then
        perform from wanzoche.turn x where x.log = l for update;  -- no segment is made before this worker can be seen
        if wanzoche.moved(l) > 0 then
            raise exception 'the log has segments, which this package doesn''t read: take a later one';
        end if;
    end if;
    insert into wanzoche.worker (log, worker, process, knows, may_be_gone) values (l, w, process, knows, grace);
    perform wanzoche.begin_session(l, w);
    if current_setting('synchronous_commit') = 'off' then
        perform set_config('synchronous_commit', 'on', true);  -- or the number might be given again after a crash
    end if;
    return w;
end $$;

-- The worker comes back by another session: false if it was taken for dead meanwhile. If the server hasn't noticed yet that the session
-- before is gone, that one is ended.
create or replace function wanzoche.hold(l int, w int) returns boolean
language plpgsql set search_path = pg_catalog, pg_temp as $$
declare old int; own bigint;
begin
    select x.pid, x.lock into old, own from wanzoche.worker x where x.log = l and x.worker = w and not x.is_over for update;
    if not found then
        return false;
    elsif old is distinct from pg_backend_pid() then
        while wanzoche.with_session(l, array[w]) <> '{}' loop
            perform pg_terminate_backend(x.pid, 1000) from (select distinct y.pid from pg_locks y
                where y.locktype = 'advisory' and y.database = (select d.oid from pg_database d where d.datname = current_database())
                and (y.classid::bigint << 32) | y.objid::bigint = coalesce(own, wanzoche.old_key(l, w)) and y.objsubid = 1 and y.granted
                and y.pid = coalesce(old, y.pid) and y.pid <> pg_backend_pid()) x;
            perform pg_sleep(0.01);
        end loop;
    end if;
    perform wanzoche.begin_session(l, w);
    return true;
end $$;

-- The worker ends. It has finished what it had in progress.
create or replace function wanzoche.leave(l int, w int) returns void
language sql set search_path = pg_catalog, pg_temp as $$
    delete from wanzoche.worker where log = l and worker = w;
    delete from wanzoche.waiter where log = l and worker = w;
    delete from wanzoche.waiting where log = l and worker = w
$$;

-- How many lines of the log were moved into segments.
create or replace function wanzoche.moved(l int) returns bigint language sql stable
return coalesce((select x.place + x.lines from wanzoche.segment x where x.log = l order by x.place desc limit 1), 0);

-- Of a caller who knows no line, or whose last line n - 1 isn't a row: returns if line n is a row or isn't there yet. WZ001 and WZ003 as
-- of `lines`.
create or replace function wanzoche.look_behind(l int, n bigint, known bigint) returns void
language plpgsql stable set search_path = pg_catalog, pg_temp as $$
begin
    if n > 0 and not exists
        (select from (select y.* from wanzoche.segment y where y.log = l and y.place < n order by y.place desc limit 1) x
            where n <= x.place + x.lines and x.stamps[(n - x.place)::int] = known)
    then
        raise exception 'line % isn''t the one that the caller knows', n - 1 using errcode = 'WZ001';
    elsif n < wanzoche.moved(l) then
        raise exception 'line % was moved into a segment', n using errcode = 'WZ003';
    end if;
end $$;

-- At most 20,000 lines from place n on, with the place and the stamp of the last. `known` is the stamp of line n - 1. WZ001: that line
-- isn't there any more, as after a crash. WZ002: a place is empty; it is the detail. WZ003: line n was moved into a segment.
create or replace function wanzoche.lines(l int, n bigint, known bigint, out news text, out final bigint, out mark bigint)
language plpgsql stable set search_path = pg_catalog, pg_temp as $$
declare many bigint;
begin
    if n = 0 or not exists (select from wanzoche.line x where x.log = l and x.place = n - 1 and x.stamp = known) then
        perform wanzoche.look_behind(l, n, known);
    end if;
    select string_agg(x.line, E'\n' order by x.place), max(x.place), (array_agg(x.stamp order by x.place desc))[1], count(*)
        into news, final, mark, many
        from (select y.* from wanzoche.line y where y.log = l and y.place >= n order by y.place limit 20000) x;
    if many <> final - n + 1 then
        select min(g) into n from generate_series(n, final) g
            where not exists (select from wanzoche.line x where x.log = l and x.place = g);
        raise exception 'there is no line at place %', n using errcode = 'WZ002', detail = n;
    end if;
    final := coalesce(final, n - 1);
    mark := coalesce(mark, known);
end $$;

-- The same for one who appends, which most often knows nearly all lines.
create or replace function wanzoche.since(l int, n bigint, known bigint, out news text, out final bigint, out mark bigint)
language plpgsql stable set search_path = pg_catalog, pg_temp as $$
declare first bigint; stamp bigint; many bigint;
begin
    select string_agg(x.line, E'\n' order by x.place) filter (where x.place >= n), max(x.place), (array_agg(x.stamp order by x.place desc))[1],
            min(x.place), (array_agg(x.stamp order by x.place))[1], count(*)
        into news, final, mark, first, stamp, many
        from (select y.* from wanzoche.line y where y.log = l and y.place >= n - 1 order by y.place limit 100) x;
    if first is distinct from n - 1 or stamp is distinct from known or final <> first + many - 1 or many = 100 then
        select x.news, x.final, x.mark into news, final, mark from wanzoche.lines(l, n, known) x;
    end if;
end $$;

-- The worker's session gets its notifications from now on.
create or replace function wanzoche.listen(l int, w int) returns void
language plpgsql set search_path = pg_catalog, pg_temp as $$
begin
    execute (select format('listen %I', coalesce(x.channel, 'wanzoche_' || l || '_' || w)) from wanzoche.worker x
        where x.log = l and x.worker = w);
end $$;

-- A time as the server's clock has it, in microseconds.
create or replace function wanzoche.microseconds(at timestamptz) returns bigint language sql immutable
return (date_part('epoch', at at time zone 'utc') * 1000000)::bigint;

-- Whether somebody has this advisory lock, as long as this transaction doesn't.
create or replace function wanzoche.is_locked(lock bigint) returns boolean language sql
return not coalesce(pg_try_advisory_xact_lock_shared(lock), true);

-- What `stand` writes into `told`, of one whose package is of a number below 6.
create or replace function wanzoche.told_of(x wanzoche.waiter) returns text
language plpgsql set search_path = pg_catalog, pg_temp as $$
begin
    return concat_ws(' ', x.worker, x.slot, x.operation, x.priority, wanzoche.microseconds(x.since),
        case when x.shuts < 'infinity' then wanzoche.microseconds(x.shuts) - wanzoche.microseconds(x.since) else -1 end,
        array_to_string(x.holds, ','));
end $$;

-- Who waits: the server's time, and a line for each in their order: its ticket, 1 if somebody has the lock of its worker or 0, its worker,
-- slot, operation and priority, since when it waits, how many microseconds its patience is (-1 if that has no end), and what it has in
-- progress. The caller is worker w.
create or replace function wanzoche.who_waits(l int, w int) returns text
language plpgsql set search_path = pg_catalog, pg_temp as $$
declare told text;
begin
    select string_agg(E'\n' || x.ticket || case when x.worker = w or wanzoche.is_locked(y.lock) then ' 1 ' else ' 0 ' end
            || coalesce(x.told, wanzoche.told_of(x)),
            '' order by x.priority desc, x.ticket)
        into told
        from wanzoche.waiter x left join wanzoche.worker y on y.log = x.log and y.worker = x.worker
        where x.log = l and x.since is not null;
    return wanzoche.microseconds(clock_timestamp()) || coalesce(told, '');
end $$;

-- Wakes who is first in order for each of these operations: a notification with the operation's number on the worker's channel. The caller
-- needs none. One whose lock nobody has is dead, and doesn't wait any more. To find out whose lock it is would take longer, while all others
-- wait for their turn: `stop_dead` does so.
--
-- Behind the number stands what the worker would be told if it asked, if there is room: the place of the first of these lines, the stamp of
-- the last, the lines, and behind an empty line who waits (`who_waits`). They are a hundred at most. If it hasn't read one before the first,
-- it asks.
create or replace function wanzoche.wake(l int, w int, operations int[]) returns void
language plpgsql set search_path = pg_catalog, pg_temp as $$
declare x record; woken int[] := '{}'; channels text[] := '{}'; reads bigint[] := '{}'; waiters text := ''; news text := '';
begin
    for x in select y.operation, y.worker, y.slot, y.reads, z.channel, y.worker = w or wanzoche.is_locked(z.lock) as is_alive,
            y.ticket, coalesce(y.told, wanzoche.told_of(y)) as told
        from wanzoche.waiter y left join wanzoche.worker z on z.log = y.log and z.worker = y.worker
        where y.log = l and y.since is not null order by y.priority desc, y.ticket
    loop
        waiters := waiters || E'\n' || x.ticket || case when x.is_alive then ' 1 ' else ' 0 ' end || x.told;
        if x.operation <> all (operations) or x.operation = any (woken) then
            continue;
        elsif not x.is_alive then
            update wanzoche.waiter y set since = null where y.log = l and y.worker = x.worker and y.slot = x.slot;
        else
            woken := woken || x.operation;
            channels := channels || case when x.worker = w then null else x.channel end;
            reads := reads || case when x.worker = w then null else x.reads end;
        end if;
    end loop;
    if array_remove(reads, null) <> '{}' then
        select min(z.place) || ' ' || (array_agg(z.stamp))[1] || E'\n' || string_agg(z.line, E'\n' order by z.place) || E'\n\n'
                || wanzoche.microseconds(clock_timestamp()) || waiters into news
            from (select y.* from wanzoche.line y where y.log = l and y.place >= (select min(r) from unnest(reads) r)
                order by y.place desc limit 100) z
            having max(z.place) = min(z.place) + count(*) - 1;
    end if;
    for place in 1..cardinality(woken) loop
        if channels[place] is not null then
            perform pg_notify(channels[place],
                woken[place] || case when reads[place] is not null and octet_length(news) between 1 and 7900 then ' ' || news else '' end);
        end if;
    end loop;
    if exists (select from wanzoche.waiting y where y.log = l and y.since is not null) then
        perform wanzoche.wake_older(l, w, operations);
    end if;
end $$;

-- The same of workers whose package is of a number below 5: who has waited longest for each.
create or replace function wanzoche.wake_older(l int, w int, operations int[]) returns void
language plpgsql set search_path = pg_catalog, pg_temp as $$
declare x record; woken int[] := '{}';
begin
    for x in select y.operation, y.worker, z.channel, z.lock
        from wanzoche.waiting y left join wanzoche.worker z on z.log = y.log and z.worker = y.worker
        where y.log = l and y.operation = any (operations) and y.since is not null order by y.since
    loop
        if x.operation = any (woken) then
            continue;
        elsif x.worker = w then
            woken := woken || x.operation;
        elsif pg_try_advisory_xact_lock_shared(coalesce(x.lock, wanzoche.old_key(l, x.worker))) then
            update wanzoche.waiting y set since = null where y.log = l and y.operation = x.operation and y.worker = x.worker;
        else
            perform pg_notify(coalesce(x.channel, 'wanzoche_' || l || '_' || x.worker), x.operation::text);
            woken := woken || x.operation;
        end if;
    end loop;
end $$;

-- Who has no session doesn't wait any more.
create or replace function wanzoche.stop_dead(l int) returns void
language plpgsql set search_path = pg_catalog, pg_temp as $$
declare
    waiting int[] := array(select x.worker from wanzoche.waiter x where x.log = l and x.since is not null
        union select x.worker from wanzoche.waiting x where x.log = l and x.since is not null);
    alive int[] := wanzoche.with_session(l, waiting);
begin
    update wanzoche.waiter x set since = null
        where x.log = l and x.since is not null and x.worker = any (waiting) and x.worker <> all (alive);
    update wanzoche.waiting x set since = null
        where x.log = l and x.since is not null and x.worker = any (waiting) and x.worker <> all (alive);
end $$;

-- Appends the finishes of these activations of worker `whose` behind line `final`, but for those that are over: they are owed whatever came
-- between. Returns the last place then.
create or replace function wanzoche.put_finishes(l int, whose int, writer int, over bigint[], final bigint, mark bigint) returns bigint
language plpgsql set search_path = pg_catalog, pg_temp as $$
declare a bigint;
begin
    foreach a in array over loop
        insert into wanzoche.line (log, place, line, by, stamp)
            values (l, final + 1, whose || ' finish ' || a || ': finished', writer, mark)
            on conflict (log, finishes) where finishes is not null do nothing;
        if found then
            final := final + 1;
        end if;
    end loop;
    return final;
end $$;

-- All that worker w does at once. Appends these lines (or none: null) if n is the next place, and the finishes of its activations `over`
-- wherever they come. Wakes who is first for the operations `wakes`. Nobody waits in its slots `leaves` any more, if its lines were
-- appended. Packages of a number below 5 also say here for which operations they wait from now on, and for which not; with `listens` their
-- session begins to listen.
--
-- Returns the lines from n on: if the first are the caller's, they are in the log. Null stands for the caller's own and no other. `taken`
-- are those of `over` that somebody else has finished. With WZ003, as of `lines`, nothing was done.
create or replace function wanzoche.append(l int, w int, n bigint, known bigint, texts text, over bigint[], wakes int[], waits int[],
    stops int[], listens boolean, leaves int[] default '{}',
    out news text, out final bigint, out mark bigint, out taken bigint[])
language plpgsql set search_path = pg_catalog, pg_temp as $$
declare is_next boolean; wanted bigint := n - 1; fresh bigint := (random() * 9007199254740991)::bigint;
begin
    perform from wanzoche.turn x where x.log = l for update;
    select x.place, x.stamp into final, mark from wanzoche.line x where x.log = l order by x.place desc limit 1;
    final := coalesce(final, -1);
    is_next := final = n - 1;
    if is_next and n > 0 and mark <> known then
        raise exception 'line % isn''t the one that the caller knows', n - 1 using errcode = 'WZ001';
    end if;
    if is_next and position(E'\n' in texts) = 0 then
        insert into wanzoche.line (log, place, line, by, stamp) values (l, n, texts, w, fresh);
        final := n;
    elsif is_next and texts is not null then
        insert into wanzoche.line (log, place, line, by, stamp)
            select l, n + x.o - 1, x.t, w, fresh from unnest(string_to_array(texts, E'\n')) with ordinality as x(t, o);
        get diagnostics final = row_count;
        final := n - 1 + final;
    end if;
    if leaves <> '{}' and (texts is null or is_next) then
        update wanzoche.waiter x set since = null where x.log = l and x.worker = w and x.slot = any (leaves);
    end if;
    if stops <> '{}' and (texts is null or is_next) then
        update wanzoche.waiting x set since = null where x.log = l and x.worker = w and x.operation = any (stops);
    end if;
    wanted := final;
    if over <> '{}' then
        wanted := final + cardinality(over);
        final := wanzoche.put_finishes(l, w, w, over, final, fresh);
    end if;
    if final >= n then
        mark := fresh;
    end if;
    if waits <> '{}' then
        insert into wanzoche.waiting (log, operation, worker, since) select l, o, w, clock_timestamp() from unnest(waits) o
            on conflict (log, operation, worker) do update set since = excluded.since where waiting.since is null;
    end if;
    if listens then
        perform wanzoche.listen(l, w);
    end if;
    if wakes <> '{}' then
        perform wanzoche.wake(l, w, wakes);
    end if;
    if not is_next or final <> wanted then
        select x.news, x.final, x.mark into news, final, mark from wanzoche.lines(l, n, known) x;
        taken := array(select x.finishes from wanzoche.line x where x.log = l and x.finishes = any (over) and x.by <> w);
    end if;
end $$;

-- How many starts are among these lines, if none of them starts an operation of `touches` or finishes an activation of `ends`; else null.
create or replace function wanzoche.starts_among(news text, touches text[], ends text[]) returns bigint
language plpgsql immutable set search_path = pg_catalog, pg_temp as $$
declare x text; found text[]; starts bigint := 0;
begin
    if touches is null then
        return null;
    end if;
    foreach x in array string_to_array(news, E'\n') loop
        found := regexp_match(x, '^\d+ (?:start (\w+): started \d+|finish (\d+): finished|use \d+ (?:put|take|look|add)(?: \d+)?: used \d+)$');
        if found is null or found[1] = any (touches) or found[2] = any (ends) then
            return null;
        elsif found[1] is not null then
            starts := starts + 1;
        end if;
    end loop;
    return starts;
end $$;

-- Appends a start of worker w that is owed behind line n - 1 with this number. If other lines stand there, it is appended behind all of them
-- if they touch none of its paths: if they are 1,000 at most, and none starts one of the operations `touches`, which share a path with it, or
-- finishes one of the activations `ends`, which are those of such operations that were in progress behind line n - 1. With null for
-- `touches` only place n will do. It isn't appended while somebody stands before it who isn't among `passes` (see above): `rivals` are the
-- numbers of the operations that share a path with it. If it is appended, nobody waits in the slots `leaves` any more, and those are woken
-- who are first for the operations `wakes`.
--
-- Returns its number, or null if it wasn't appended, and the lines from n on, its own among them; null stands for its own and no other. Who
-- waits is told if it wasn't appended, or if it `asks` and there are some who aren't among `passes`. It has the priority `prior` and the
-- ticket `arrived`. With WZ003, as of `lines`, nothing was done.
create or replace function wanzoche.start(l int, w int, n bigint, known bigint, named text, number bigint, touches text[], ends text[],
    rivals int[], passes bigint[], prior bigint, arrived bigint, wakes int[], leaves int[], asks boolean,
    out started bigint, out news text, out final bigint, out mark bigint, out waiters text)
language plpgsql set search_path = pg_catalog, pg_temp as $$
declare own text := w || ' start ' || named || ': started '; fresh bigint := (random() * 9007199254740991)::bigint;
begin
    perform from wanzoche.turn x where x.log = l for update;
    select x.news, x.final, x.mark into news, final, mark from wanzoche.since(l, n, known) x;
    started := case when final < n then number when final < n + 1000 then number + wanzoche.starts_among(news, touches, ends) end;
    if started is not null then
        insert into wanzoche.line (log, place, line, by, stamp) select l, final + 1, own || started, w, fresh
            where not exists (select from wanzoche.waiter x where x.log = l and x.worker <> w and x.since is not null
                and x.shuts <= clock_timestamp() and x.operation = any (rivals) and x.ticket <> all (passes)
                and (x.priority > prior or x.priority = prior and x.ticket < arrived));
        started := case when found then started end;
    end if;
    if started is not null then
        final := final + 1;
        mark := fresh;
        news := news || E'\n' || own || started;
        if leaves <> '{}' then
            update wanzoche.waiter x set since = null where x.log = l and x.worker = w and x.slot = any (leaves);
        end if;
        if wakes <> '{}' then
            perform wanzoche.wake(l, w, wakes);
        end if;
    end if;
    if started is null or asks and exists (select from wanzoche.waiter x
        where x.log = l and x.worker <> w and x.since is not null and x.ticket <> all (passes))
    then
        waiters := wanzoche.who_waits(l, w);
    end if;
end $$;

-- From now on somebody waits in each of these slots of worker w, where nobody did: for this operation, with this priority and with these
-- activations in progress, and so many seconds of patience. Nobody appends meanwhile, so whoever does so behind it knows. Returns the lines as
-- of `lines`, and who waits. With WZ003, as of `lines`, nothing was done.
create or replace function wanzoche.stand(l int, w int, slots int[], operations int[], priorities bigint[], activations text[], patience float8,
    n bigint, known bigint, out news text, out final bigint, out mark bigint, out waiters text)
language plpgsql set search_path = pg_catalog, pg_temp as $$
declare now timestamptz; ends timestamptz := 'infinity';
begin
    perform from wanzoche.turn x where x.log = l for update;
    select x.news, x.final, x.mark into news, final, mark from wanzoche.lines(l, n, known) x;
    now := clock_timestamp();
    if patience < 'infinity' then
        ends := now + make_interval(secs => patience);
    end if;
    insert into wanzoche.waiter as y (log, worker, slot, operation, priority, holds, since, shuts, reads, told)
        select l, w, x.slot, x.operation, x.priority, x.holds::bigint[], now, ends, stand.final + 1,
            w || ' ' || x.slot || ' ' || x.operation || ' ' || x.priority || ' ' || wanzoche.microseconds(now) || ' '
            || case when ends < 'infinity' then (patience * 1000000)::bigint else -1 end || ' ' || trim(x.holds, '{}')
        from unnest(slots, operations, priorities, activations) with ordinality x(slot, operation, priority, holds, o) order by x.o
        on conflict (log, worker, slot) do update set operation = excluded.operation, priority = excluded.priority, ticket = excluded.ticket,
            since = excluded.since, shuts = excluded.shuts, holds = excluded.holds, reads = excluded.reads, told = excluded.told
            where y.since is null;
    waiters := wanzoche.who_waits(l, w);
end $$;

-- Appends the finish of an activation of worker w, behind whatever lines there are, and wakes who is first for the operations `wakes`. Returns
-- the lines from n on as `append` does; `is_taken` if somebody else has finished it. With WZ003, as of `lines`, nothing was done.
create or replace function wanzoche.finish(l int, w int, n bigint, known bigint, activation bigint, wakes int[],
    out news text, out final bigint, out mark bigint, out is_taken boolean)
language plpgsql set search_path = pg_catalog, pg_temp as $$
declare own text := w || ' finish ' || activation || ': finished'; fresh bigint := (random() * 9007199254740991)::bigint;
begin
    perform from wanzoche.turn x where x.log = l for update;
    select x.news, x.final, x.mark into news, final, mark from wanzoche.since(l, n, known) x;
    if final < n + 19999 then
        insert into wanzoche.line (log, place, line, by, stamp) values (l, final + 1, own, w, fresh)
            on conflict (log, finishes) where finishes is not null do nothing;
    else
        perform wanzoche.put_finishes(l, w, w, array[activation], (select max(x.place) from wanzoche.line x where x.log = l), fresh);
        select x.news, x.final, x.mark into news, final, mark from wanzoche.lines(l, n, known) x;
        found := false;
    end if;
    is_taken := false;
    if found then
        final := final + 1;
        mark := fresh;
        news := news || E'\n' || own;
    else
        is_taken := exists (select from wanzoche.line x where x.log = l and x.finishes = activation and x.by <> w);
    end if;
    if wakes <> '{}' then
        perform wanzoche.wake(l, w, wakes);
    end if;
end $$;

-- The same lines as of `lines`, and nobody else appends until the transaction ends.
create or replace function wanzoche.turn(l int, n bigint, known bigint, out news text, out final bigint, out mark bigint)
language plpgsql set search_path = pg_catalog, pg_temp as $$
begin
    perform from wanzoche.turn x where x.log = l for update;
    select x.news, x.final, x.mark into news, final, mark from wanzoche.lines(l, n, known) x;
end $$;

-- Which of these workers are over, or have been without a session for so long. One that comes back within that time has lost nothing.
create or replace function wanzoche.dead(l int, workers int[], grace interval) returns setof int
language plpgsql set search_path = pg_catalog, pg_temp as $$
declare w int; alive int[] := wanzoche.with_session(l, workers); is_dead boolean; since timestamptz;
begin
    for w in select distinct y from unnest(workers) y where y <> all (alive) order by y loop
        select y.is_over or coalesce(y.gone + grace <= clock_timestamp(), false), y.gone into is_dead, since
            from wanzoche.worker y where y.log = l and y.worker = w for update;  -- from now on it doesn't come back
        if not found then
            return next w;
        elsif wanzoche.with_session(l, array[w]) = '{}' then
            if is_dead then
                return next w;
            elsif since is null then
                update wanzoche.worker y set gone = clock_timestamp() where y.log = l and y.worker = w;
            end if;
        end if;
    end loop;
end $$;

-- The same for who may only look. Nothing is written: one whose session nobody else has missed yet is taken for dead at once.
create or replace function wanzoche.seem_dead(l int, workers int[], grace interval) returns setof int
language plpgsql set search_path = pg_catalog, pg_temp as $$
declare alive int[];
begin
    if has_table_privilege('wanzoche.worker', 'update') then
        return query select wanzoche.dead(l, workers, grace);
        return;
    end if;
    alive := wanzoche.with_session(l, workers);
    return query select distinct y from unnest(workers) y where y <> all (alive) and not exists
        (select from wanzoche.worker x where x.log = l and x.worker = y and not x.is_over and x.gone + grace > clock_timestamp());
end $$;

-- Worker w finishes activations of another, if that one is dead or `even_alive`, and wakes who waits for these operations. It knows all
-- lines before n. WZ003: line n was moved into a segment, and nothing was done.
create or replace function wanzoche.bury(l int, w int, whose int, over bigint[], wakes int[], grace interval, even_alive boolean,
    n bigint default null) returns boolean
language plpgsql set search_path = pg_catalog, pg_temp as $$
begin
    if not even_alive then
        if not exists (select from wanzoche.dead(l, array[whose], grace)) then
            return false;
        end if;
        delete from wanzoche.worker x where x.log = l and x.worker = whose;
    end if;
    perform from wanzoche.turn x where x.log = l for update;
    if not even_alive then
        delete from wanzoche.waiter x where x.log = l and x.worker = whose;
        delete from wanzoche.waiting x where x.log = l and x.worker = whose;
    end if;
    if n < wanzoche.moved(l) then
        raise exception 'line % was moved into a segment', n using errcode = 'WZ003';
    end if;
    perform wanzoche.put_finishes(l, whose, w, over, coalesce((select max(x.place) from wanzoche.line x where x.log = l), -1),
        (random() * 9007199254740991)::bigint);
    perform wanzoche.wake(l, w, wakes);
    return true;
end $$;

-- The rows of workers that are dead go, if they aren't among those that are named, which have something in progress as far as a caller says
-- who knows all lines before n. A thousand at most at once, and none of one that has appended a line since.
create or replace function wanzoche.sweep(l int, n bigint, named int[], grace interval) returns void
language plpgsql set search_path = pg_catalog, pg_temp as $$
declare silent int[]; dead int[]; alive int[] := wanzoche.with_session(l, null);
begin
    silent := array(select x.worker from wanzoche.worker x
        where x.log = l and x.worker <> all (named) and x.worker <> all (alive) order by x.worker limit 1000);
    dead := array(select wanzoche.dead(l, silent, grace));
    delete from wanzoche.worker x where x.log = l and x.worker = any (dead) and n >= wanzoche.moved(l)
        and not exists (select from wanzoche.line y where y.log = l and y.place >= n and y.by = x.worker);
    delete from wanzoche.waiter x where x.log = l and not exists (select from wanzoche.worker y where y.log = l and y.worker = x.worker);
    delete from wanzoche.waiting x where x.log = l and not exists (select from wanzoche.worker y where y.log = l and y.worker = x.worker);
end $$;

-- Waits until all transactions have ended in which lines are being inserted now: false if that takes more than two seconds. A quick insert
-- (see above) that is begun behind this sees all lines that the caller knows.
create or replace function wanzoche.inserts_ended() returns boolean
language plpgsql set search_path = pg_catalog, pg_temp as $$
declare
    began timestamptz := clock_timestamp();
    busy text[] := array(select x.virtualtransaction from pg_locks x where x.locktype = 'relation'
        and x.database = (select d.oid from pg_database d where d.datname = current_database()) and x.relation = 'wanzoche.line'::regclass
        and x.mode = 'RowExclusiveLock' and x.granted and x.pid is distinct from pg_backend_pid());
begin
    while exists (select from pg_locks x where x.virtualtransaction = any (busy) and x.locktype = 'relation'
        and x.relation = 'wanzoche.line'::regclass and x.mode = 'RowExclusiveLock')
    loop
        if clock_timestamp() > began + interval '2 seconds' then
            return false;
        end if;
        perform pg_sleep(0.001);
    end loop;
    return true;
end $$;

-- The workers that have a session.
create or replace function wanzoche.alive(l int) returns int[]
language sql set search_path = pg_catalog, pg_temp as $$
    select wanzoche.with_session(l, null)
$$;

-- The first worker of a package that reads no segments, and that may still be alive; null if there is none. Those without a session for
-- the grace are over from now on.
create or replace function wanzoche.older_worker(l int, grace interval) returns int
language plpgsql set search_path = pg_catalog, pg_temp as $$
declare alive int[] := wanzoche.alive(l);
begin
    update wanzoche.worker x
        set is_over = coalesce(x.gone + grace <= clock_timestamp(), false), gone = coalesce(x.gone, clock_timestamp())
        where x.log = l and x.knows < 2 and not x.is_over and x.worker <> all (alive);
    return (select min(x.worker) from wanzoche.worker x where x.log = l and x.knows < 2 and not x.is_over);
end $$;

-- Moves so many lines from `first` on into a segment, if they are the next to move. Returns how many lines were moved then; if it wasn't
-- done: null if somebody inserts lines for too long, or less than zero for a worker whose package reads no segments. The caller knows all
-- lines before n, `known` is the stamp of the last, and that one stays a row. WZ001 and WZ002 as of `lines`.
create or replace function wanzoche.rotate(l int, n bigint, known bigint, first bigint, many int, grace interval) returns bigint
language plpgsql set search_path = pg_catalog, pg_temp as $$
declare older int; deleted int;
begin
    if not wanzoche.inserts_ended() then
        return null;
    end if;
    perform from wanzoche.turn x where x.log = l for update;
    if wanzoche.moved(l) <> first or many < 1 or first + many >= n then
        return wanzoche.moved(l);
    elsif not exists (select from wanzoche.line x where x.log = l and x.place = n - 1 and x.stamp = known) then
        raise exception 'line % isn''t the one that the caller knows', n - 1 using errcode = 'WZ001';
    end if;
    older := wanzoche.older_worker(l, grace);
    if older is not null then
        return -older;
    end if;
    if current_setting('synchronous_commit') = 'off' then
        perform set_config('synchronous_commit', 'on', true);  -- whoever finds a line moved takes it that it lasts
    end if;
    insert into wanzoche.segment (log, segment, place, lines, text, stamp, stamps, buried)
        select l, (select coalesce(max(y.segment), 0) + 1 from wanzoche.segment y where y.log = l), first, many,
            string_agg(x.line, E'\n'), (array_agg(x.stamp))[many], array_agg(x.stamp),
            coalesce(array_agg(x.finishes) filter (where x.finishes is not null and x.by::text <> split_part(x.line, ' ', 1)), '{}')
        from (select y.* from wanzoche.line y where y.log = l and y.place >= first and y.place < first + many order by y.place) x;
    delete from wanzoche.line x where x.log = l and x.place >= first and x.place < first + many;
    get diagnostics deleted = row_count;
    if deleted <> many then
        raise exception 'there are % lines from place % on, and not %', deleted, first, many using errcode = 'WZ002', detail = first;
    end if;
    return first + many;
end $$;

-- A segment of a log as the text of a journal, or the lines behind the last segment: `pathsys audit DECLARATION` takes them all in order.
-- Null if there is no such segment.
create or replace function wanzoche.journal(called text, number int default null) returns text
language sql stable set search_path = pg_catalog, pg_temp as $$
    select E'journal 2 room 1048576' || case when number is null
        then coalesce(E'\n' || (select string_agg(x.line, E'\n' order by x.place) from wanzoche.line x where x.log = y.log), '')
        else E'\n' || (select x.text from wanzoche.segment x where x.log = y.log and x.segment = number) end
    from wanzoche.log y where y.name = called
$$;

-- Removes a log with all its lines: false if there is none, or if a worker may be alive. It may as long as it has a session, and for the
-- grace behind the first moment in which somebody saw that it had none, if it hasn't closed its paths. This call looks, too.
create or replace function wanzoche.remove(called text) returns boolean
language plpgsql set search_path = pg_catalog, pg_temp as $$
declare l int; alive int[]; longest interval;
begin
    select x.log into l from wanzoche.log x where x.name = called for update;  -- from now on nobody arrives
    perform from wanzoche.worker x where x.log = l and not x.is_over for update;  -- and nobody comes back
    alive := wanzoche.alive(l);
    update wanzoche.worker x set gone = clock_timestamp()
        where x.log = l and not x.is_over and x.gone is null and x.worker <> all (alive);
    select coalesce(max(x.may_be_gone), '5 seconds') into longest from wanzoche.worker x where x.log = l;
    if l is null or alive <> '{}'
        or exists (select from wanzoche.worker x where x.log = l and not x.is_over and x.gone + longest > clock_timestamp())
    then
        return false;
    end if;
    delete from wanzoche.line where log = l;
    delete from wanzoche.segment where log = l;
    delete from wanzoche.worker where log = l;
    delete from wanzoche.waiter where log = l;
    delete from wanzoche.waiting where log = l;
    delete from wanzoche.turn where log = l;
    delete from wanzoche.log where log = l;
    return true;
end $$;
