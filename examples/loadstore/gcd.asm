; The greatest common divisor of two numbers by Euclid's rule, with calls and a stack.
; Reads pairs of positive numbers, up to a 0, and prints one number for each pair.

next:   addiu $2, $0, 5
        syscall
        blez $2, @end
        or $16, $2, $0
        addiu $2, $0, 5
        syscall
        or $4, $16, $0
        or $5, $2, $0
        jal @gcd
        or $4, $2, $0
        addiu $2, $0, 1
        syscall
        j @next
end:    addiu $2, $0, 10
        syscall

; $2 is the greatest common divisor of $4 and $5
gcd:    addiu $29, $29, -4      ; the stack goes down from the end of the memory
        sw $31, 0($29)
euclid: beq $5, $0, @found
        jal @modulo
        or $4, $5, $0
        or $5, $2, $0
        j @euclid
found:  or $2, $4, $0
        lw $31, 0($29)
        addiu $29, $29, 4
        jr $31

; $2 is what $4 leaves when it is divided by $5; uses $8, $9 and $10
modulo: or $2, $4, $0
        or $8, $5, $0
double: subu $9, $2, $8         ; the divisor is doubled as long as it still fits
        slt $10, $9, $8
        bne $10, $0, @take
        sll $8, $8, 1
        j @double
take:   slt $10, $2, $8         ; and taken off where it fits, halved again and again
        bne $10, $0, @halve
        subu $2, $2, $8
halve:  beq $8, $5, @left
        srl $8, $8, 1
        j @take
left:   jr $31
