# The largest grant, the last number of S: a take of that many bytes is granted, and of one byte more it is refused.
L 528
T 140    # 144 bytes at 172
T 68     # 72, keeps them from the remainder
S        # the remainder has 144 bytes and must keep 8: 136, less 4 for the head
T 133    # one byte more than 132
G 172    # 144 bytes free, which may be given whole
S        # now it is 140
T 141    # one byte more
T 140    # the free block
T 132    # all that the remainder can give
S        # 0: its last 8 bytes are never given
T 1      # refused
