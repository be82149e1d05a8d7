; The checksum of records in the form Intel HEX: all bytes of a record, with the checksum, come to 0 in eight bits.
; Reads records without their last byte: the number of data bytes, two bytes of address, the type, the data.
; Prints the byte that each record ends with, up to a record of the type 1, which is the last.
;
; RAM 0  the sum of the bytes so far
; RAM 1  the number of data bytes
; RAM 2  the type

record: lda #0
        sta 0
        jsr @take
        sta 1
        jsr @take
        jsr @take
        jsr @take
        sta 2
        ldx 1
data:   beq @told       ; by ldx and dex
        jsr @take
        dex
        jmp @data
told:   lda #0
        sec
        sbc 0
        out
        lda 2
        cmp #1
        bne @record
        brk 0

; the next byte in A, added to the sum
take:   in
        pha
        clc
        adc 0
        sta 0
        pla
        rts
