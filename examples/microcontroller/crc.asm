; The checksum CRC-8 of some bytes: polynomial x^8 + x^2 + x + 1, highest bit first, from 0 on.
; Reads how many bytes there are, then the bytes, and prints the checksum.
;
; r0  the checksum so far
; r1  how many bytes are left
; r2  how many bits of the byte are left

        clrf r0
        movf porta, w
        movwf r1
        movf r1, f          ; sets Z where there are none
        btfsc status, 2
        goto @told
byte:   movf porta, w
        xorwf r0, f
        movlw 8
        movwf r2
bit:    bcf status, 0
        rlf r0, f           ; the highest bit goes to C
        movlw 7
        btfsc status, 0
        xorwf r0, f
        decfsz r2, f
        goto @bit
        decfsz r1, f
        goto @byte
told:   movf r0, w
        movwf portb
        sleep
