-- Lets a role look at the logs of paths in a database, and do nothing else: `wanzoche status`, `log`, `audit` and `watch` work for it.
--
--     psql -d DATABASE -1 -v role=watcher -f look.sql
--
-- It doesn't see by which channel a worker is notified. Run it again behind each new number of the schema.

grant usage on schema wanzoche to :"role";
grant select on wanzoche.schema, wanzoche.log, wanzoche.line, wanzoche.segment, wanzoche.waiter, wanzoche.waiting to :"role";
grant select (log, worker, process, gone, is_over, knows, may_be_gone, pid, role, lock) on wanzoche.worker to :"role";
