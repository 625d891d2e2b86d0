// CPU: an instruction in each cycle. outM counts only where writeM is 1.
load CPU.hdl,
output-file CPU.out,
compare-to CPU.cmp,
output-list time%S0.4.0 inM%D0.6.0 instruction%B0.16.0 reset%B2.1.2 outM%D0.6.0 writeM%B3.1.2
    addressM%D2.5.1 pc%D0.5.0;

// A and D keep their words: M=D shows D
set instruction %B0011000000111001, tick, output; tock, output; // @12345
set instruction %B1110110000010000, tick, output; tock, output; // D=A
set instruction %B1110001100001000, tick, output; tock, output; // M=D
set instruction %B0101101110100000, tick, output; tock, output; // @23456
set instruction %B1110000111010000, tick, output; tock, output; // D=A-D
set instruction %B1110001100001000, tick, output; tock, output; // M=D
set instruction %B0000001111101000, tick, output; tock, output; // @1000
set instruction %B1110001100001000, tick, output; tock, output; // M=D
set instruction %B0000001111101001, tick, output; tock, output; // @1001
set instruction %B1110001110011000, tick, output; tock, output; // MD=D-1
set instruction %B1110001100001000, tick, output; tock, output; // M=D
set instruction %B0000001111101000, tick, output; tock, output; // @1000
set inM 11111, set instruction %B1111000010010000, tick, output; tock, output; // D=D+M
set instruction %B1110001100001000, tick, output; tock, output; // M=D
set instruction %B1111110111101000, tick, output; tock, output; // AM=M+1
set instruction %B1110001100001000, tick, output; tock, output; // M=D

// an A-instruction loads nothing but A, and does not jump, whatever its bits
set instruction %B0111111111111111, tick, output; tock, output; // @32767
set instruction %B1110001100001000, tick, output; tock, output; // M=D
set instruction %B0111111111111000, tick, output; tock, output; // @32760
set instruction %B1110001100001000, tick, output; tock, output; // M=D
set instruction %B0000000000000111, tick, output; tock, output; // @7
set instruction %B1110001100001000, tick, output; tock, output; // M=D
set instruction %B0000000000010000, tick, output; tock, output; // @16
set instruction %B1110001100001000, tick, output; tock, output; // M=D

// each place that is loaded, and none
set inM %B0101010101010101, set instruction %B0000001111101000, tick, output; tock, output; // @1000
set instruction %B1110110010100000, tick, output; tock, output; // A=A-1
set instruction %B1110001100001000, tick, output; tock, output; // M=D
set instruction %B1110111010010000, tick, output; tock, output; // D=-1
set instruction %B1110001100001000, tick, output; tock, output; // M=D
set instruction %B1110110111110000, tick, output; tock, output; // AD=A+1
set instruction %B1110001100001000, tick, output; tock, output; // M=D
set instruction %B1110011111101000, tick, output; tock, output; // AM=D+1
set instruction %B1110001100001000, tick, output; tock, output; // M=D
set instruction %B1110001110111000, tick, output; tock, output; // AMD=D-1
set instruction %B1110001100001000, tick, output; tock, output; // M=D
set instruction %B1110011111000000, tick, output; tock, output; // D+1
set instruction %B1110001100001000, tick, output; tock, output; // M=D
set instruction %B1111110000011000, tick, output; tock, output; // MD=M
set instruction %B1110001100001000, tick, output; tock, output; // M=D
set inM %B1010101010101010, set instruction %B1111110000011000, tick, output; tock, output; // MD=M
set instruction %B1110001100001000, tick, output; tock, output; // M=D

// each function of D and A, and of D and M
set instruction %B0011001111001100, tick, output; tock, output; // @13260
set instruction %B1110110000010000, tick, output; tock, output; // D=A
set instruction %B0101010110101010, tick, output; tock, output; // @21930
set instruction %B1110101010001000, tick, output; tock, output; // M=0
set instruction %B1110111111001000, tick, output; tock, output; // M=1
set instruction %B1110111010001000, tick, output; tock, output; // M=-1
set instruction %B1110001100001000, tick, output; tock, output; // M=D
set instruction %B1110110000001000, tick, output; tock, output; // M=A
set instruction %B1110001101001000, tick, output; tock, output; // M=!D
set instruction %B1110110001001000, tick, output; tock, output; // M=!A
set instruction %B1110001111001000, tick, output; tock, output; // M=-D
set instruction %B1110110011001000, tick, output; tock, output; // M=-A
set instruction %B1110011111001000, tick, output; tock, output; // M=D+1
set instruction %B1110110111001000, tick, output; tock, output; // M=A+1
set instruction %B1110001110001000, tick, output; tock, output; // M=D-1
set instruction %B1110110010001000, tick, output; tock, output; // M=A-1
set instruction %B1110000010001000, tick, output; tock, output; // M=D+A
set instruction %B1110010011001000, tick, output; tock, output; // M=D-A
set instruction %B1110000111001000, tick, output; tock, output; // M=A-D
set instruction %B1110000000001000, tick, output; tock, output; // M=D&A
set instruction %B1110010101001000, tick, output; tock, output; // M=D|A
set inM -4321, set instruction %B1111110000001000, tick, output; tock, output; // M=M
set instruction %B1111110001001000, tick, output; tock, output; // M=!M
set instruction %B1111110011001000, tick, output; tock, output; // M=-M
set instruction %B1111110111001000, tick, output; tock, output; // M=M+1
set instruction %B1111110010001000, tick, output; tock, output; // M=M-1
set instruction %B1111000010001000, tick, output; tock, output; // M=D+M
set instruction %B1111010011001000, tick, output; tock, output; // M=D-M
set instruction %B1111000111001000, tick, output; tock, output; // M=M-D
set instruction %B1111000000001000, tick, output; tock, output; // M=D&M
set instruction %B1111010101001000, tick, output; tock, output; // M=D|M

// each jump where D is below 0, to 5000
set instruction %B1110111010010000, tick, output; tock, output; // D=-1
set instruction %B0001001110001000, tick, output; tock, output; // @5000
set instruction %B1110001100000000, tick, output; tock, output; // D
set instruction %B1110001100000001, tick, output; tock, output; // D;JGT
set instruction %B1110001100000010, tick, output; tock, output; // D;JEQ
set instruction %B1110001100000011, tick, output; tock, output; // D;JGE
set instruction %B1110001100000100, tick, output; tock, output; // D;JLT
set instruction %B1110001100000101, tick, output; tock, output; // D;JNE
set instruction %B1110001100000110, tick, output; tock, output; // D;JLE
set instruction %B1110001100000111, tick, output; tock, output; // D;JMP

// each jump where D is 0, to 5000
set instruction %B1110101010010000, tick, output; tock, output; // D=0
set instruction %B0001001110001000, tick, output; tock, output; // @5000
set instruction %B1110001100000000, tick, output; tock, output; // D
set instruction %B1110001100000001, tick, output; tock, output; // D;JGT
set instruction %B1110001100000010, tick, output; tock, output; // D;JEQ
set instruction %B1110001100000011, tick, output; tock, output; // D;JGE
set instruction %B1110001100000100, tick, output; tock, output; // D;JLT
set instruction %B1110001100000101, tick, output; tock, output; // D;JNE
set instruction %B1110001100000110, tick, output; tock, output; // D;JLE
set instruction %B1110001100000111, tick, output; tock, output; // D;JMP

// each jump where D is above 0, to 5000
set instruction %B1110111111010000, tick, output; tock, output; // D=1
set instruction %B0001001110001000, tick, output; tock, output; // @5000
set instruction %B1110001100000000, tick, output; tock, output; // D
set instruction %B1110001100000001, tick, output; tock, output; // D;JGT
set instruction %B1110001100000010, tick, output; tock, output; // D;JEQ
set instruction %B1110001100000011, tick, output; tock, output; // D;JGE
set instruction %B1110001100000100, tick, output; tock, output; // D;JLT
set instruction %B1110001100000101, tick, output; tock, output; // D;JNE
set instruction %B1110001100000110, tick, output; tock, output; // D;JLE
set instruction %B1110001100000111, tick, output; tock, output; // D;JMP

// a jump to the last word, behind which the first one comes, and one that counts
set instruction %B0111111111111111, tick, output; tock, output; // @32767
set instruction %B1110101010000111, tick, output; tock, output; // 0;JMP
set instruction %B1110101010010000, tick, output; tock, output; // D=0
set instruction %B0000000001100100, tick, output; tock, output; // @100
set instruction %B1110001110010100, tick, output; tock, output; // D=D-1;JLT
set instruction %B1110001100001000, tick, output; tock, output; // M=D

// reset, with a jump and without
set reset 1, set instruction %B1110101010000111, tick, output; tock, output; // 0;JMP
set reset 0, set instruction %B0000000100101100, tick, output; tock, output; // @300
set reset 1, set instruction %B1110001100000000, tick, output; tock, output; // D
set reset 0, set instruction %B0000000000000001, tick, output; tock, output; // @1
