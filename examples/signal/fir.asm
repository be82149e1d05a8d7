; A filter of eight taps without feedback: a low pass with the gain 1.
; Reads numbers as long as there are some, and prints one for each.
;
; DM 0..7   the coefficients, fractions with 15 binary places; together they are 1
; DM 8..15  the last eight numbers, in a ring; r1 points at the newest, and the next one above it is the one before

        .data DM 0 -512
        .data DM 1 1024
        .data DM 2 5120
        .data DM 3 10752
        .data DM 4 10752
        .data DM 5 5120
        .data DM 6 1024
        .data DM 7 -512

        r0 = 0
        ring0 = 7
        r1 = 8
        ring1 = 7
next:   nop | x = in
        nop | [r1] = x
        lc = 7
        a = 0 | x = [r0]+, y = [r1]+
tap:    a += x * y | x = [r0]+, y = [r1]+
        loop @tap
        a += x * y | y = [r1]-          ; the last tap; r1 goes to the oldest number, which the next one replaces
        round a | nop
        nop | out frac a
        jump @next
