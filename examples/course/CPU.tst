// CPU: a script as the course has it, which looks at the register D inside.
load CPU.hdl,
output-file CPU.out,
compare-to CPU.cmp,
output-list time%S0.4.0 instruction%B0.16.0 outM%D1.6.0 writeM%B3.1.3 addressM%D1.5.0 pc%D0.5.0 DRegister[]%D1.6.1;

set instruction %B0011000000111001, tick, output, tock, output; // @12345
set instruction %B1110110000010000, tick, output, tock, output; // D=A
set instruction %B1110001100001000, tick, output, tock, output; // M=D
