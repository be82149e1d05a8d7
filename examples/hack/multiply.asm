; The product of two numbers, by adding the second as often as the first says.
; Reads pairs from the keyboard, the first of a pair from 0 on, up to a -1. Prints a product for each pair.
;
; R0  how often is still to be added
; R1  what is added
; R2  the sum so far

next:   #24576
        D=M             ; from the keyboard
        #@end
        D, JLT
        #0
        M=D
        #24576
        D=M
        #1
        M=D
        #2
        M=0
loop:   #0
        D=M
        #@told
        D, JEQ
        #0
        M=D-1
        #1
        D=M
        #2
        M=D+M
        #@loop
        0, JMP
told:   #2
        D=M
        #24577
        M=D             ; to the printer
        #@next
        0, JMP
end:    halt 0
