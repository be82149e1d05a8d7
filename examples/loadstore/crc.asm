; The checksum CRC-32 of some bytes, that of Ethernet and of zip: polynomial 0xedb88320, lowest bit first.
; Reads bytes, up to a negative number, keeps them in the memory, and prints the checksum, as a number with a sign.
;
; $16  the address behind the last byte
; $17  the checksum so far
; $18  the polynomial

        addu $16, $0, $0
read:   addiu $2, $0, 5
        syscall
        bltz $2, @count
        sb $2, 0($16)
        addiu $16, $16, 1
        j @read

count:  addiu $17, $0, -1
        lui $18, 60856          ; 0xedb8
        ori $18, $18, 33568     ; 0x8320
        addu $8, $0, $0
byte:   beq $8, $16, @told
        lbu $9, 0($8)
        xor $17, $17, $9
        addiu $10, $0, 8
bit:    andi $11, $17, 1
        srl $17, $17, 1
        beq $11, $0, @even
        xor $17, $17, $18
even:   addiu $10, $10, -1
        bgtz $10, @bit
        addiu $8, $8, 1
        j @byte
told:   nor $4, $17, $0
        addiu $2, $0, 1
        syscall
        addiu $2, $0, 10
        syscall
