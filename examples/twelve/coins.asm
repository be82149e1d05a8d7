; A machine that sells for 35 and takes coins of 5, 10 and 20: its state is what was paid.
; Reads coins, up to a 0. Prints the change when enough was paid, and a coin that isn't taken as a negative number.
;
; M 64  the coin
; M 65  what was paid
; M 66  -35
; M 67  -5
; M 68  -10

        .data M 66 4061
        .data M 67 4091
        .data M 68 4086

next:   cla
        krb
        sna
        hlt
        dca 64
        tad 64
        tad 67              ; the coin less 5,
        sna
        jmp @taken
        tad 67              ; less 10,
        sna
        jmp @taken
        tad 68              ; less 20: 0 where it is that coin
        sna
        jmp @taken
        cla
        tad 64
        cma iac
        tls
        jmp @next

taken:  tad 64
        tad 65
        dca 65
        tad 65
        tad 66
        spa                 ; enough was paid
        jmp @next
        tls
        cla
        dca 65
        jmp @next
