; The dot product of two vectors.
; Reads how long they are, from 1 to 512, then one vector and the other, and prints the product.
;
; DM 0..    the first vector
; DM 512..  the second

        nop | b = in
        nop | lc = b
        r0 = 0
first:  nop | x = in
        nop | [r0]+ = x
        loop @first
        nop | lc = b
        r1 = 512
second: nop | y = in
        nop | [r1]+ = y
        loop @second

        nop | lc = b
        r0 = 0
        r1 = 512
        a = 0 | x = [r0]+, y = [r1]+
term:   a += x * y | x = [r0]+, y = [r1]+       ; the next factors are loaded beside
        loop @term
        nop | out sat a
        halt 0
