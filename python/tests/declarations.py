"""Declarations that the tests share."""

SLOT = """resource slot cell
operation deposit, remove
path deposit ; remove end
end
"""

BOOK = """resource book cell
operation read, write
path { read } , write end
end
"""

LINE = """resource line queue 8
operation put, get
path { put ; get : 8 } end
path put end
path get end
end
"""
