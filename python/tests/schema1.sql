-- What number 1 of the schema was: tests bring it to the number of today.
-- Who writes here keeps these rules; docs/shared.md says why.
--
--   * A log has lines at the places 0, 1, 2, .., none left out. A line is one of a journal without its mark, as `3 start read: started 7`.
--     It may only be appended, and only if it is owed by all lines before it. Each reader checks that, and refuses to go on otherwise.
--   * A worker is a number that `arrive` gives, and none is given twice. It appends by the session alone that has its lock (`arrive`,
--     `hold`): so a worker whose session is gone appends nothing.
--   * Each call is one transaction and may be repeated. Only `arrive` uses a number up each time.
--   * A session that appends may do so with `synchronous_commit` off, so that it keeps nobody waiting while the disk writes. Who has to
--     know that a line lasts commits another transaction behind it with `synchronous_commit` on, which has to write something, as
--     `select pg_logical_emit_message(true, 'wanzoche', '')`, and tells nobody before.
--   * One line may also be appended without `append`, which is quicker. No row is returned if it wasn't:
--
--     insert into wanzoche.line (log, place, line, by) select :log, :place, :line, :worker
--         from (select pg_advisory_xact_lock(wanzoche.key(:log, 0)) offset 0) turn where :place = 0
--         or exists (select from wanzoche.line x where x.log = :log and x.place = :place - 1 and x.stamp = :known)
--         on conflict do nothing returning stamp, wanzoche.wake(:log, :worker, :operations)
--
-- Advisory locks: key(log, 0) is held by whoever appends, to the end of the transaction, and key(log, worker) by the worker's session.

create schema wanzoche;

create table wanzoche.schema (number int not null);
insert into wanzoche.schema values (1);

create table wanzoche.log (
    log int generated always as identity primary key check (log < 1048576),
    name text not null unique,
    declaration text not null,
    workers int not null default 0 check (workers < 268435456)  -- the last number that was given
);

create table wanzoche.line (
    log int not null,
    place bigint not null,
    line text not null,
    by int not null,  -- who appended it: for a dead worker another does
    stamp bigint not null default (random() * 9007199254740991)::bigint,  -- tells this line from one that stood here before a crash
    finishes bigint generated always as (substring(line from '^\d+ finish (\d+): finished$')::bigint) stored,
    primary key (log, place)
);
create unique index line_finishes on wanzoche.line (log, finishes) where finishes is not null;

create table wanzoche.worker (
    log int not null,
    worker int not null,
    process text,  -- for whoever asks who that is: the number of its process, and its machine
    gone timestamptz,  -- when somebody first saw its lock free
    is_over boolean not null default false,  -- it never comes back, and others may finish what it has in progress
    primary key (log, worker)
);

-- Which worker waits for which operation, and since when; null if it doesn't any more. After a crash nobody waits: each says so again.
create unlogged table wanzoche.waiting (
    log int not null,
    operation int not null,
    worker int not null,
    since timestamptz,
    primary key (log, operation, worker)
) with (fillfactor = 50);

create function wanzoche.key(l int, w int) returns bigint language sql immutable as $$
    select (22391::bigint << 48) | (l::bigint << 28) | w
$$;

-- The log of this name, which is made if there is none and a declaration is given; its declaration is returned.
create function wanzoche.open(called text, declared text, out l int, out declaration text) language plpgsql as $$
begin
    select x.log, x.declaration into l, declaration from wanzoche.log x where x.name = called;
    if l is null and declared is not null then
        perform pg_advisory_xact_lock(wanzoche.key(0, 0));
        select x.log, x.declaration into l, declaration from wanzoche.log x where x.name = called;
        if l is null then
            insert into wanzoche.log (name, declaration) values (called, declared) returning log into l;
            declaration := declared;
        end if;
    end if;
end $$;

-- A new worker, whose lock the session has.
create function wanzoche.arrive(l int, process text) returns int language plpgsql as $$
declare w int;
begin
    update wanzoche.log set workers = workers + 1 where log = l returning workers into w;
    insert into wanzoche.worker (log, worker, process) values (l, w, process);
    perform pg_advisory_lock(wanzoche.key(l, w));
    if current_setting('synchronous_commit') = 'off' then
        perform set_config('synchronous_commit', 'on', true);  -- or the number might be given again after a crash
    end if;
    return w;
end $$;

-- The worker comes back by another session: false if it was taken for dead meanwhile. If the server hasn't noticed yet that the session
-- before is gone, that one is ended.
create function wanzoche.hold(l int, w int) returns boolean language plpgsql as $$
declare is_held boolean;
begin
    while not pg_try_advisory_lock(wanzoche.key(l, w)) loop
        perform pg_terminate_backend(x.pid, 1000) from pg_locks x
            where x.locktype = 'advisory' and x.database = (select d.oid from pg_database d where d.datname = current_database())
            and x.classid::bigint = wanzoche.key(l, w) >> 32 and x.objid::bigint = wanzoche.key(l, w) & 4294967295 and x.objsubid = 1
            and x.mode = 'ExclusiveLock' and x.granted and x.pid <> pg_backend_pid();
        perform pg_sleep(0.01);
    end loop;
    update wanzoche.worker set gone = null where log = l and worker = w and not is_over;
    is_held := found;
    if not is_held then
        perform pg_advisory_unlock(wanzoche.key(l, w));
    end if;
    return is_held;
end $$;

-- The worker ends. It has finished what it had in progress.
create function wanzoche.leave(l int, w int) returns void language sql as $$
    update wanzoche.worker set is_over = true where log = l and worker = w;
    delete from wanzoche.waiting where log = l and worker = w
$$;

-- At most 20,000 lines from place n on, with the place and the stamp of the last. `known` is the stamp of line n - 1. WZ001: that line
-- isn't there any more, as after a crash. WZ002: a place is empty; it is the detail.
create function wanzoche.lines(l int, n bigint, known bigint, out news text, out final bigint, out mark bigint)
language plpgsql stable as $$
declare many bigint;
begin
    if n > 0 and not exists (select from wanzoche.line x where x.log = l and x.place = n - 1 and x.stamp = known) then
        raise exception 'line % isn''t the one that the caller knows', n - 1 using errcode = 'WZ001';
    end if;
    select string_agg(x.line, E'\n' order by x.place), max(x.place), (array_agg(x.stamp order by x.place desc))[1], count(*)
        into news, final, mark, many
        from (select y.* from wanzoche.line y where y.log = l and y.place >= n order by y.place limit 20000) x;
    if many <> final - n + 1 then
        select min(g) into n from generate_series(n, final) g
            where not exists (select from wanzoche.line x where x.log = l and x.place = g);
        raise exception 'there is no line at place %', n using errcode = 'WZ002', detail = n;
    end if;
    final := coalesce(final, n - 1);
    mark := coalesce(mark, known);
end $$;

-- Wakes who has waited longest for each of these operations: a notification with the operation's number on the worker's channel. The caller
-- needs none. One whose session is gone doesn't wait any more.
create function wanzoche.wake(l int, w int, operations int[]) returns void language plpgsql as $$
declare x record; woken int[] := '{}';
begin
    for x in select y.operation, y.worker from wanzoche.waiting y
        where y.log = l and y.operation = any (operations) and y.since is not null order by y.since
    loop
        if x.operation = any (woken) then
            continue;
        elsif x.worker = w then
            woken := woken || x.operation;
        elsif pg_try_advisory_xact_lock_shared(wanzoche.key(l, x.worker)) then
            update wanzoche.waiting y set since = null where y.log = l and y.operation = x.operation and y.worker = x.worker;
        else
            perform pg_notify('wanzoche_' || l || '_' || x.worker, x.operation::text);
            woken := woken || x.operation;
        end if;
    end loop;
end $$;

-- Appends the finishes of these activations of worker `whose` behind line `final`, but for those that are over: they are owed whatever came
-- between. Returns the last place then.
create function wanzoche.put_finishes(l int, whose int, writer int, over bigint[], final bigint, mark bigint) returns bigint
language plpgsql as $$
declare a bigint;
begin
    foreach a in array over loop
        insert into wanzoche.line (log, place, line, by, stamp)
            values (l, final + 1, whose || ' finish ' || a || ': finished', writer, mark)
            on conflict (log, finishes) where finishes is not null do nothing;
        if found then
            final := final + 1;
        end if;
    end loop;
    return final;
end $$;

-- All that worker w does at once. Appends these lines (or none: null) if n is the next place, and the finishes of its activations `over`
-- wherever they come. Wakes who waits for the operations `wakes`. From now on it waits for the operations `waits`, and not for `stops` if
-- its lines were appended; with `listens` its session begins to listen.
--
-- Returns the lines from n on: if the first are the caller's, they are in the log. Null stands for the caller's own and no other. `taken`
-- are those of `over` that somebody else has finished.
create function wanzoche.append(l int, w int, n bigint, known bigint, texts text, over bigint[], wakes int[], waits int[], stops int[],
    listens boolean, out news text, out final bigint, out mark bigint, out taken bigint[])
language plpgsql as $$
declare is_next boolean; wanted bigint := n - 1; fresh bigint := (random() * 9007199254740991)::bigint;
begin
    perform pg_advisory_xact_lock(wanzoche.key(l, 0));
    select x.place, x.stamp into final, mark from wanzoche.line x where x.log = l order by x.place desc limit 1;
    final := coalesce(final, -1);
    is_next := final = n - 1;
    if is_next and n > 0 and mark <> known then
        raise exception 'line % isn''t the one that the caller knows', n - 1 using errcode = 'WZ001';
    end if;
    if is_next and position(E'\n' in texts) = 0 then
        insert into wanzoche.line (log, place, line, by, stamp) values (l, n, texts, w, fresh);
        final := n;
    elsif is_next and texts is not null then
        insert into wanzoche.line (log, place, line, by, stamp)
            select l, n + x.o - 1, x.t, w, fresh from unnest(string_to_array(texts, E'\n')) with ordinality as x(t, o);
        get diagnostics final = row_count;
        final := n - 1 + final;
    end if;
    if stops <> '{}' and (texts is null or is_next) then
        update wanzoche.waiting x set since = null where x.log = l and x.worker = w and x.operation = any (stops);
    end if;
    wanted := final;
    if over <> '{}' then
        wanted := final + cardinality(over);
        final := wanzoche.put_finishes(l, w, w, over, final, fresh);
    end if;
    if final >= n then
        mark := fresh;
    end if;
    if waits <> '{}' then
        insert into wanzoche.waiting (log, operation, worker, since) select l, o, w, clock_timestamp() from unnest(waits) o
            on conflict (log, operation, worker) do update set since = excluded.since where waiting.since is null;
    end if;
    if listens then
        execute 'listen wanzoche_' || l || '_' || w;
    end if;
    if wakes <> '{}' then
        perform wanzoche.wake(l, w, wakes);
    end if;
    if not is_next or final <> wanted then
        select x.news, x.final, x.mark into news, final, mark from wanzoche.lines(l, n, known) x;
        taken := array(select x.finishes from wanzoche.line x where x.log = l and x.finishes = any (over) and x.by <> w);
    end if;
end $$;

-- The same lines as of `lines`, and nobody else appends until the transaction ends.
create function wanzoche.turn(l int, n bigint, known bigint, out news text, out final bigint, out mark bigint) language plpgsql as $$
begin
    perform pg_advisory_xact_lock(wanzoche.key(l, 0));
    select x.news, x.final, x.mark into news, final, mark from wanzoche.lines(l, n, known) x;
end $$;

-- Which of these workers are over, or have been without a session for so long. One that comes back within that time has lost nothing.
create function wanzoche.dead(l int, workers int[], grace interval) returns setof int language plpgsql as $$
declare w int; x wanzoche.worker;
begin
    for w in select distinct y from unnest(workers) y order by y loop
        if pg_try_advisory_xact_lock_shared(wanzoche.key(l, w)) then
            select y.* into x from wanzoche.worker y where y.log = l and y.worker = w;
            if x.worker is null or x.is_over or x.gone + grace <= clock_timestamp() then
                return next w;
            elsif x.gone is null then
                update wanzoche.worker y set gone = clock_timestamp() where y.log = l and y.worker = w;
            end if;
        end if;
    end loop;
end $$;

-- Worker w finishes activations of another, if that one is dead or `even_alive`, and wakes who waits for these operations.
create function wanzoche.bury(l int, w int, whose int, over bigint[], wakes int[], grace interval, even_alive boolean) returns boolean
language plpgsql as $$
begin
    if not even_alive then
        if not exists (select from wanzoche.dead(l, array[whose], grace)) then
            return false;
        end if;
        update wanzoche.worker x set is_over = true where x.log = l and x.worker = whose;
        delete from wanzoche.waiting x where x.log = l and x.worker = whose;
    end if;
    perform pg_advisory_xact_lock(wanzoche.key(l, 0));
    perform wanzoche.put_finishes(l, whose, w, over, coalesce((select max(x.place) from wanzoche.line x where x.log = l), -1),
        (random() * 9007199254740991)::bigint);
    perform wanzoche.wake(l, w, wakes);
    return true;
end $$;

-- Removes a log that no living worker has open, with all its lines: false if there is none or one is alive.
create function wanzoche.remove(called text) returns boolean language plpgsql as $$
declare l int;
begin
    perform pg_advisory_xact_lock(wanzoche.key(0, 0));
    select x.log into l from wanzoche.log x where x.name = called;
    if l is null or exists
        (select from wanzoche.worker x where x.log = l and not pg_try_advisory_xact_lock_shared(wanzoche.key(l, x.worker)))
    then
        return false;
    end if;
    delete from wanzoche.line where log = l;
    delete from wanzoche.worker where log = l;
    delete from wanzoche.waiting where log = l;
    delete from wanzoche.log where log = l;
    return true;
end $$;
