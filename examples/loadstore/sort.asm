; Numbers in rising order, by insertion.
; Reads how many there are, then the numbers, and prints them.
;
; $16  how many there are
; $17  the address behind the numbers that are sorted
; $18  the address behind all
; $19  the new number

        addiu $2, $0, 5
        syscall
        or $16, $2, $0
        sll $18, $16, 2
        addu $17, $0, $0
next:   beq $17, $18, @print
        addiu $2, $0, 5
        syscall
        or $19, $2, $0
        or $8, $17, $0          ; the place that is free
shift:  beq $8, $0, @place
        lw $9, -4($8)           ; the number before it
        slt $10, $19, $9
        beq $10, $0, @place
        sw $9, 0($8)
        addiu $8, $8, -4
        j @shift
place:  sw $19, 0($8)
        addiu $17, $17, 4
        j @next

print:  addu $8, $0, $0
each:   beq $8, $18, @end
        lw $4, 0($8)
        addiu $2, $0, 1
        syscall
        addiu $8, $8, 4
        j @each
end:    addiu $2, $0, 10
        syscall
