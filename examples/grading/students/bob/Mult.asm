// RAM[2] becomes the product of RAM[0] and RAM[1]. (It is wrong: it adds RAM[0] once too often.)
    @R2
    M=0
(LOOP)
    @R0
    D=M
    @R2
    M=D+M
    @R1
    MD=M-1
    @LOOP
    D;JGE
(END)
    @END
    0;JMP
