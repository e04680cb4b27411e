# Both layouts: M lays out with the index, and every answer is the one that L's pool gives.
M 1024   # layout 2: bins get an index of up to thirteen levels
T 68     # 72 bytes at 172
T 68     # 72, keeps the free ones apart
T 76     # 80 at 316
T 68
T 92     # 96 at 468
T 68
T 124    # 128 at 636
T 68
G 172    # the bins 72, 80, 96 and 128: they reach 1, 2, 3 and 5 levels
G 316
G 468
G 636
S        # four free large blocks
T 92     # the bin of its size
T 40     # small blocks have no index: cut from the remainder
T 124
G 172    # it is free already: refused with 5
M 175    # no pool has this length: refused with 1, and the old one stays
L 1024   # layout 1 again, over the same bytes
G 172    # nothing is held there now
T 68
S
