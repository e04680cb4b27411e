# Joining: four large blocks side by side, given back so that a block has free neighbours below, above, on both sides, and the remainder.
L 1024
T 100    # at 172
T 100    # at 276
T 100    # at 380
T 100    # at 484
T 100    # at 588, and stays: it keeps the others from the remainder
G 172    # alone: a bin of 104
G 380    # alone: the second of that bin
G 276    # between both: one block of 312, and the bin of 104 is gone
S
G 484    # joins the 312 below it
S
G 588    # touches the remainder, with all that is free below
S        # as fresh as after the first line
