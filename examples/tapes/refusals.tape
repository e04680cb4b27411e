# Refusals: each leaves the pool as it was.
T 8      # 1: there is no pool yet
L 168    # 1: 176 is the least
L 177    # 1: no multiple of 8
L 400
L 65544  # 1: too long, and the pool of 400 stays
T 0      # 3
T 230    # 4: 240 bytes and 8 more are not there
T 4294967295   # 4
T 20
G 380    # done
G 380    # 5: given back already
G 100    # 5: in the header
G 4294967295   # 5
S
