// Fibonacci.asm, the translated folder examples/fibonacci: the tenth number, and SP.
load Fibonacci.asm,
output-list RAM[0]%D1.6.1 RAM[2048]%D1.6.1;

repeat 60000 { ticktock; }
output;
