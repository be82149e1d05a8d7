; A lock that opens to the digits 2 7 1 8: a machine whose state is how many of them it has seen.
; Reads digits, up to a 255. Prints the state after each digit; at 4 the lock opens, and begins anew.
;
; r0        the state
; r1        the digit
; r32..r35  the code; no digit of it stands twice

        .data F 32 2
        .data F 33 7
        .data F 34 1
        .data F 35 8

next:   movf porta, w
        movwf r1
        incfsz r1, w
        goto @digit
        sleep
digit:  movf r0, w
        addlw 32
        movwf fsr
        movf indf, w        ; the digit that is wanted
        xorwf r1, w
        btfsc status, 2
        goto @right
        clrf r0             ; a wrong one, but it may be the first of the code
        movf r32, w
        xorwf r1, w
        btfss status, 2
        goto @show
right:  incf r0, f
show:   movf r0, w
        movwf portb
        movlw 4
        xorwf r0, w
        btfsc status, 2
        clrf r0
        goto @next
