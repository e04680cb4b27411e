# The worked tape: every rule once, in 13 records.
L 1024
T 10     # a small block, cut from the remainder's high end
T 100    # a large one, from its low end
T 61     # 61 bytes need a block of 72, the least large one
T 200
G 172    # the first large block comes back and enters its bin
T 32
T 72     # 80 bytes: the free 104 would leave 24, too little; the remainder gives
G 172    # a second time: refused with 5
G 276    # joins the free block below it
T 100    # 104 of the 176 that are free there; 72 are left as a block
G 556    # touches the remainder, and joins it
S
