# Bins with several blocks: small lists, a chain of three large bins, one of them with two blocks.
L 1280
T 100    # 168, a block of 104
T 61     # 272, 72
T 61     # 344, 72
T 61     # 416, 72
T 61     # 488, 72
T 90     # 560, 96
T 61     # 656, 72
T 130    # 728, 136
T 61     # 864, 72; R is 936
T 4      # small ones, from the pool's end downward
T 12
T 4
T 30
T 4
T 12
G 276    # the bin 72
G 420    # and once more, in second place
G 564    # the bin 96
G 732    # the bin 136
G 1276   # the small bin 8: the last to come back is its first
G 1252
G 1204
G 1260   # the small bin 16
