# Layout 2: bins that reach one to five levels of the index, one of them with two blocks.
M 1536
T 92     # 168, a block of 96
T 61     # 264, 72; such a block keeps the free ones apart
T 68     # 336, 72
T 61     # 408
T 124    # 480, 128
T 61     # 608
T 92     # 680, 96
T 61     # 776
T 76     # 848, 80
T 61     # 928
T 108    # 1000, 112
T 61     # 1112
T 188    # 1184, 192
T 61     # 1376; R is 1448
T 4      # a small one, from the pool's end
G 172    # the bin 96: three levels
G 340    # the bin 72: one level
G 484    # the bin 128: five levels
G 684    # the bin 96 again, in second place: not in the index
G 852    # the bin 80: two levels
G 1004   # the bin 112: two levels
G 1188   # the bin 192: four levels
