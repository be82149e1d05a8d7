; Numbers in rising order: each is put among those that came before it.
; Reads how many there are, at most 240, then the numbers, and prints them.
;
; RAM 0    how many are still to come
; RAM 1    how many are kept
; RAM 2    the new number
; RAM 16.. the numbers that are kept, in rising order

        in
        sta 0
next:   lda 0
        beq @print
        dec 0
        in
        sta 2
        ldx 1
shift:  cpx #0          ; the place x is free
        beq @place
        lda 15,x        ; the number before it
        cmp 2
        bcc @place      ; is less: the new one stays behind it
        sta 16,x        ; else it moves up
        dex
        jmp @shift
place:  lda 2
        sta 16,x
        inc 1
        jmp @next

print:  ldx #0
each:   cpx 1
        beq @end
        lda 16,x
        out
        inx
        jmp @each
end:    brk 0
