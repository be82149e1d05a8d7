; The greatest common divisor of two numbers: the smaller is taken from the greater until both are equal.
; Reads pairs of numbers from 1 to 255, up to a 0, and prints one number for each pair.
;
; RAM 0  a
; RAM 1  b

next:   in
        beq @end
        sta 0
        in
        sta 1
again:  lda 0
        cmp 1
        beq @equal
        bcc @less
        sbc 1           ; a is greater, so cmp left C set
        sta 0
        jmp @again
less:   lda 1
        sec
        sbc 0
        sta 1
        jmp @again
equal:  out
        jmp @next
end:    brk 0
