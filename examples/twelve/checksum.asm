; The checksum of a paper tape, as the binary loader of the PDP-8 has it: on the tape a word is two rows of six bits, and the
; checksum is the sum of all rows in twelve bits.
; Reads how many words there are, at least 1, then the words, and prints the checksum, as a number with a sign.
;
; M 64    how many words are still to be read, negative
; M 65    how many are still to be added, negative
; M 66    the sum so far
; M 67    the word
; M 68    63, the lower half of a word
; M 69    127: the words stand from the next cell on
; X 0     walks through the words

        .data M 68 63
        .data M 69 127

        krb
        cma iac
        dca 64
        tad 64
        dca 65
        tad 69
        dcx 0
read:   krb
        dca i 8             ; through X 0, which counts up first
        isz 64
        jmp @read

        tad 69
        dcx 0
add:    tad i 8
        dca 67
        tad 67
        and 68
        tad 66
        dca 66
        tad 67
        bsw
        and 68
        tad 66
        dca 66
        isz 65
        jmp @add
        tad 66
        tls
        hlt
