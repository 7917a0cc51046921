"""How long tests wait for what has to come."""

LONGEST = 600
"""So many seconds something may take that comes by itself. It only ends a hang: where others use the machine, a process may get a tenth of
a processor for minutes, or none for some seconds."""
