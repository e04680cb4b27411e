# Small blocks at the edge go home: as long as the block at the remainder's end is free, it joins the remainder.
L 256
T 4      # 8 bytes at the end of the pool
T 12     # 16 bytes below it
T 20     # 24 bytes, where the remainder ends
G 236    # the 16: it waits in its bin
S        # remainder 40
G 212    # the 24: it goes home, and then the 16 too
S        # remainder 80, and no block waits
G 236    # 5: it is no block any more
G 252    # the last one
T 76     # as much as after laying out
S
