; For large.nml: reads numbers, and puts out three times each.
.data DM 0 3
        nop | y = [0] | nop
next:   nop | nop | x = in
        mul | nop | nop
        nop | nop | out a
        jmp @next
