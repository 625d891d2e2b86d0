// A script for an emulator of VM commands, which loads a folder: there is none, so it is refused.
load,
output-list RAM[8000]%D2.6.1 RAM[8001]%D2.6.1 RAM[8002]%D2.6.1 RAM[8003]%D2.6.1;

set RAM[8000] 5;
repeat 1000000 {
  vmstep;
}
output;
