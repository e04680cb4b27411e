# Scattered room: more is free than is asked for, and still it is refused. A larger request may pass where a smaller one fails.
L 688
T 140    # 144 bytes at 172
T 68     # 72, keeps the two apart
T 140    # 144 at 388
T 68     # 72, keeps it from the remainder
T 76     # what is left of the remainder, but for 8 bytes
G 172    # 144 bytes free
G 388    # and another 144 bytes
S        # 292 bytes are free
T 76     # 80 bytes: refused, for 144 would leave 64, less than a large block
T 68     # 72 bytes: the second of the two gives them, and keeps 72
T 140    # 144 bytes: the other one, whole
S
