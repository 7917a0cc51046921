"""So many seconds something is waited for at a server, before something else is done."""

OPENING = 10.0
"""An opening tries so long to reach the server."""
OUTAGE = 30.0
"""A call waits so long for an answer of the server, unless the paths were told how long."""
ANSWER = 30.0
"""An answer is waited for so long. Then the session is given up, and another asks again."""
CONNECTING = 10.0
"""One attempt to connect may take so long."""
CLOSING = 2.0
"""A close tries so long to tell the server what it has to."""
SPARE = 0.1
"""So long behind its time limit a caller waits for an answer."""
CHECK = 1.0
"""After so long who waits looks for dead workers, and for a wake that somebody owed who died."""
SELDOM = 5.0
"""After so long it also looks whether somebody is dead who waits, and would be woken in vain."""
PAUSE, LONGEST_PAUSE = 0.01, 1.0
"""So long it is before the server is asked again; from one failure to the next the pause doubles, up to the longest."""
