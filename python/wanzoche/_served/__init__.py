"""Paths that machines share, over a log that a PostgreSQL server keeps: docs/machines.md. A room for each task, from what callers see down to
the server:

- `paths`, `entries`, `begun`: what callers hold. `store`: one opening, whose callers wait for replies to their `requests`.
- `clerk`: who works, and how its parts are put together. `desk`, `guests`: where one thread at a time works, and threads of callers there.
  `steps`: what is done next.
- What the desk keeps, its `books`: `wanted`, `holding`, `slots`, `trouble`, and what the declaration says, `operations`.
- What is done with them: `following` what others have appended, `checks` and `burying` for the dead, `turns` of those who wait, `drafts` and
  `trips` for what is appended, `flight` and `catching_up` for what isn't known of that, `outages` without a session, `replies` to who is
  refused.
- `log`: an opening at the server. `known` is taken over from it, `appends` go to it, `waits` are those who wait, `texts` its lines, `dead` and
  `segments` what it says; `calls` makes all of its calls, which are `statements` of the `schema`. What an append is told and tells are `wishes`.
- `session`: a connection, made by `connecting` and `beginning`, with quick calls of `libpq`. `times`: how long each of these waits.

All but what callers see is for who is at the clerk's desk, the clerk or a thread of a caller: one lock, `Desk.lock`, protects it, and there is
no other. What any thread may call says so, and takes no lock, so that a finalizer or a signal handler may call it, too.
"""
