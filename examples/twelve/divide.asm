; Quotient and remainder, by a subroutine that takes the divisor off again and again.
; Reads a dividend and a divisor, up to a divisor of 0. Prints the quotient and the remainder. All are from 0 to 2047.
;
; M 64  the dividend, and in the end the remainder
; M 65  the divisor, negative
; M 66  the quotient

next:   krb
        dca 64
        krb
        sna
        hlt
        cma iac
        dca 65
        jms @divide
        tad 66
        tls
        cla
        tad 64
        tls
        jmp @next

        nop                 ; the cells 8 to 15 count up where a jump goes through them,
        nop                 ; so the subroutine begins behind them

; jms writes where the program goes on into the cell with this word's number, and goes to the next word
divide: .bits 000
        cla
        dca 66
again:  cla cll
        tad 64
        tad 65
        snl                 ; a carry: the divisor fits
        jmp @left
        dca 64
        isz 66
        jmp @again
left:   cla
        jmp i @divide
