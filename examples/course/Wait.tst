// Waits for a key, and cannot be run: there is no command while.
load Memory.hdl,
output-list out%D1.6.1;

set address 24576, eval;
while out <> 75 {
    eval;
}
output;
