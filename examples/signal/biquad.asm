; A filter of the second order with feedback: a Butterworth low pass for a tenth of the rate, with the gain 1.
; Reads numbers as long as there are some, and prints one for each. What passes 16 bits ends at the nearest number.
;
; DM 0..4   the coefficients of the cells 8 to 12, fractions with 14 binary places
; DM 8..10  the new number, and the two before it
; DM 11..12 the last two results

        .data DM 0 1105
        .data DM 1 2210
        .data DM 2 1105
        .data DM 3 18727
        .data DM 4 -6763

next:   r0 = 0
        r1 = 8
        nop | x = in
        nop | [8] = x
        lc = 4
        a = 0 | x = [r0]+, y = [r1]+
term:   a += x * y | x = [r0]+, y = [r1]+
        loop @term
        a += x * y | x = [9]            ; the last term, while the numbers begin to move on
        a <<= 1 | [10] = x              ; from 14 to 15 binary places
        round a | x = [8]
        nop | [9] = x
        nop | x = [11]
        nop | [12] = x
        nop | [11] = frac a
        nop | out frac a
        jump @next
