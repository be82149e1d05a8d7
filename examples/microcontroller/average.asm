; A filter: the average of the last four numbers, rounded down.
; Reads numbers as long as there are some, and prints an average for each. Before the first stand four zeros.
;
; r0, r1    the sum of the last four, the lower byte in r0
; r2        the new number
; r3, r4    the sum, shifted
; r16..r19  the last four, the oldest where fsr points

        movlw 16
        movwf fsr
next:   movf porta, w
        movwf r2
        movf indf, w        ; the oldest goes
        subwf r0, f
        btfss status, 0
        decf r1, f
        movf r2, w          ; the new one comes
        movwf indf
        addwf r0, f
        btfsc status, 0
        incf r1, f
        incf fsr, f         ; behind 19 comes 16: 20 without its bit 2
        bcf fsr, 2
        movf r0, w
        movwf r3
        movf r1, w
        movwf r4
        call @half
        call @half
        movf r3, w
        movwf portb
        goto @next

; halves r3 and r4; r4, which is at most 3, gives its lowest bit to r3
half:   bcf status, 0
        rrf r4, f
        rrf r3, f
        return
