; How many words a line has: a machine of two states, between words and in a word, that reads a letter at a time.
; Reads the codes of characters, where 32 is a blank, 10 the end of a line, and 0 the end of all.
; Prints a number for each line.
;
; R0  the state: 0 between words, 1 in a word
; R1  how many words the line has had
; R2  the character

line:   #0
        M=0
        #1
        M=0
letter: #24576
        D=M
        #2
        M=D
        #@end
        D, JEQ
        #10
        D=D-A
        #@told
        D, JEQ          ; the end of the line
        #2
        D=M
        #32
        D=D-A
        #@blank
        D, JEQ
        #0              ; a letter: a word begins where the state was 0
        D=M
        M=1
        #@letter
        D, JNE
        #1
        M=M+1
        #@letter
        0, JMP
blank:  #0
        M=0
        #@letter
        0, JMP
told:   #1
        D=M
        #24577
        M=D
        #@line
        0, JMP
end:    halt 0
