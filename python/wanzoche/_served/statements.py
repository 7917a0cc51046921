"""What a session has the server prepare: the calls of schema.sql, and the statements beside them."""

from __future__ import annotations

from .schema import SCHEMA

PUT = (
    "insert into wanzoche.line (log, place, line, by) select $1::int, $3::bigint, $5, $2::int "
    "from (select from wanzoche.turn where log = $1::int for update) turn "
    "where (select x.place = $3::bigint - 1 and x.stamp = $4::bigint from wanzoche.line x where x.log = $1::int "
    "order by x.place desc limit 1){} on conflict do nothing returning stamp{}"
)
"""Appends one line, if its place is the next one: then there is a row. Not for the first line of a log."""
MAY_PASS = (
    " and not exists (select from wanzoche.waiter w where w.log = $1::int and w.worker <> $2::int and w.since is not null "
    "and w.shuts <= clock_timestamp() and w.operation = any ($6::int[]) and w.ticket <> all ($7::bigint[]) "
    "and (w.priority > $8::bigint or w.priority = $8::bigint and w.ticket < $9::bigint))"
)
"""Nobody stands before a start in whose way it might be, but for those that are known and that it may pass."""
COPY = (
    "select min(x.place), max(x.place), count(*), string_agg(x.line, E'\\n' order by x.place) || E'\\n' from "
    "(select y.place, y.line from wanzoche.line y where y.log = $1 and y.place >= $2 order by y.place limit $3) x"
)
"""Lines of the table from a place on, whatever stands there."""
SEGMENT_AT = (
    "select place, lines, text, stamp from wanzoche.segment where log = $1 and place = "
    "(select min(x.place) from wanzoche.segment x where x.log = $1 and x.place + x.lines > $2 and x.place >= "
    "coalesce((select max(y.place) from wanzoche.segment y where y.log = $1 and y.place <= $2), 0))"
)
"""The segment in which a place is, or else the next one behind it. Of no other the text or the stamps are read."""
OWN = (
    "select finishes from wanzoche.line where log = $1::int and finishes = any ($2::bigint[]) and by = $3::int "
    "union all select a from unnest($2::bigint[]) a where exists (select from wanzoche.segment x where x.log = $1::int "
    "and a <> all (x.buried) and strpos(E'\\n' || x.text || E'\\n', format(E'\\n%s finish %s: finished\\n', $3::int, a)) > 0)"
)
"""Which of these activations a worker has finished itself. It looks through all segments for those whose finish was moved."""
LASTS = "select set_config('synchronous_commit', $1, true), pg_logical_emit_message(true, 'wanzoche', '')"
"""Waits for the disk, if anything is written."""
STATEMENTS = {
    b"begin": "begin",
    b"commit": "commit",
    b"rollback": "rollback",
    b"open": "select * from wanzoche.open($1, $2, $3, $4, $5)",
    b"arrive": "select wanzoche.arrive($1, $2, {}, $3)".format(SCHEMA),
    b"process": "select process from wanzoche.worker where log = $1 and worker = $2",
    b"hold": "select wanzoche.hold($1, $2)",
    b"leave": "select wanzoche.leave($1, $2)",
    b"lines": "select * from wanzoche.lines($1, $2, $3)",
    b"lines_and_waiters": "select x.*, wanzoche.who_waits($1, $4) from wanzoche.lines($1, $2, $3) x",
    b"put_start": PUT.format(MAY_PASS, ""),
    b"put_finish": PUT.format("", ", wanzoche.wake($1::int, $2::int, $6::int[])"),
    b"start": "select * from wanzoche.start($1, $2, $3, $4, $5, $6, $7, $8, $9, $10, $11, $12, $13, $14, $15)",
    b"finish": "select * from wanzoche.finish($1, $2, $3, $4, $5, $6)",
    b"listen": "select wanzoche.listen($1, $2)",
    b"stand": "select * from wanzoche.stand($1, $2, $3, $4, $5, $6, $7, $8, $9)",
    b"waiters": "select wanzoche.who_waits($1, $2)",
    b"lasts": LASTS,
    b"line_lasts": LASTS + " where exists (select from wanzoche.line where log = $2 and place >= $3 and by = $4)",
    b"append": "select * from wanzoche.append($1, $2, $3, $4, $5, $6, $7, '{}', '{}', false, $8)",
    b"turn": "select x.*, wanzoche.who_waits($1, $4) from wanzoche.turn($1, $2, $3) x",
    b"copy": COPY,
    b"segment": SEGMENT_AT,
    b"own": OWN,
    b"dead": "select wanzoche.dead($1, $2, $3)",
    b"seem_dead": "select wanzoche.seem_dead($1, $2, $3)",
    b"look": "select log, declaration, lost, grace, room from wanzoche.log where name = $1",
    b"stop_dead": "select wanzoche.stop_dead($1)",
    b"sweep": "select wanzoche.sweep($1, $2, $3, $4)",
    b"bury": "select wanzoche.bury($1, $2, $3, $4, $5, $6, $7, $8)",
    b"rotate": "select wanzoche.rotate($1, $2, $3, $4, $5, $6)",
}
