# Small blocks: a bin is a stack, and free small blocks are not joined: only at the remainder's end they go home (home.tape).
L 256
T 4      # 8 bytes at the end of the pool
T 4
T 12     # 16 bytes
T 4      # stays held, so nothing above it goes home
G 252
G 244
T 4      # the one that came back last
T 4      # then the other
G 228    # a free block of 16
T 4      # is not used for 8 bytes: the remainder gives
S
