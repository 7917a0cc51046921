"""A door interlock: of two doors one is open at most, and the machine runs only while both are shut."""

from wanzoche import Paths

paths = Paths("resource cabin cell operation front, rear, machine path front , rear , machine end end")

front = paths.enter("front")
for wish in ("rear", "machine"):
    if paths.try_enter(wish) is None:
        print(paths.why(wish))
front.leave()
with paths("machine"):
    print("the machine runs; doors may open: {}".format(paths.can_start("front")))
print(paths.journal(), end="")
