// Runs a VM program by an emulator, of which there is none.
load SimpleAdd.vm,
output-list RAM[0]%D2.6.2;

set sp 256;
repeat 3 { vmstep; }
output;
