// ALU: its eighteen functions, of some pairs of words.
load ALU.hdl,
output-file ALU.out,
compare-to ALU.cmp,
output-list x%D1.6.1 y%D1.6.1 zx nx zy ny f no out%D1.6.1 zr ng;

set x 0, set y -1;
set zx 1, set nx 0, set zy 1, set ny 0, set f 1, set no 0, eval, output; // 0
set zx 1, set nx 1, set zy 1, set ny 1, set f 1, set no 1, eval, output; // 1
set zx 1, set nx 1, set zy 1, set ny 0, set f 1, set no 0, eval, output; // -1
set zx 0, set nx 0, set zy 1, set ny 1, set f 0, set no 0, eval, output; // x
set zx 1, set nx 1, set zy 0, set ny 0, set f 0, set no 0, eval, output; // y
set zx 0, set nx 0, set zy 1, set ny 1, set f 0, set no 1, eval, output; // not x
set zx 1, set nx 1, set zy 0, set ny 0, set f 0, set no 1, eval, output; // not y
set zx 0, set nx 0, set zy 1, set ny 1, set f 1, set no 1, eval, output; // -x
set zx 1, set nx 1, set zy 0, set ny 0, set f 1, set no 1, eval, output; // -y
set zx 0, set nx 1, set zy 1, set ny 1, set f 1, set no 1, eval, output; // x + 1
set zx 1, set nx 1, set zy 0, set ny 1, set f 1, set no 1, eval, output; // y + 1
set zx 0, set nx 0, set zy 1, set ny 1, set f 1, set no 0, eval, output; // x - 1
set zx 1, set nx 1, set zy 0, set ny 0, set f 1, set no 0, eval, output; // y - 1
set zx 0, set nx 0, set zy 0, set ny 0, set f 1, set no 0, eval, output; // x + y
set zx 0, set nx 1, set zy 0, set ny 0, set f 1, set no 1, eval, output; // x - y
set zx 0, set nx 0, set zy 0, set ny 1, set f 1, set no 1, eval, output; // y - x
set zx 0, set nx 0, set zy 0, set ny 0, set f 0, set no 0, eval, output; // x and y
set zx 0, set nx 1, set zy 0, set ny 1, set f 0, set no 1, eval, output; // x or y

set x 17, set y 3;
set zx 1, set nx 0, set zy 1, set ny 0, set f 1, set no 0, eval, output; // 0
set zx 1, set nx 1, set zy 1, set ny 1, set f 1, set no 1, eval, output; // 1
set zx 1, set nx 1, set zy 1, set ny 0, set f 1, set no 0, eval, output; // -1
set zx 0, set nx 0, set zy 1, set ny 1, set f 0, set no 0, eval, output; // x
set zx 1, set nx 1, set zy 0, set ny 0, set f 0, set no 0, eval, output; // y
set zx 0, set nx 0, set zy 1, set ny 1, set f 0, set no 1, eval, output; // not x
set zx 1, set nx 1, set zy 0, set ny 0, set f 0, set no 1, eval, output; // not y
set zx 0, set nx 0, set zy 1, set ny 1, set f 1, set no 1, eval, output; // -x
set zx 1, set nx 1, set zy 0, set ny 0, set f 1, set no 1, eval, output; // -y
set zx 0, set nx 1, set zy 1, set ny 1, set f 1, set no 1, eval, output; // x + 1
set zx 1, set nx 1, set zy 0, set ny 1, set f 1, set no 1, eval, output; // y + 1
set zx 0, set nx 0, set zy 1, set ny 1, set f 1, set no 0, eval, output; // x - 1
set zx 1, set nx 1, set zy 0, set ny 0, set f 1, set no 0, eval, output; // y - 1
set zx 0, set nx 0, set zy 0, set ny 0, set f 1, set no 0, eval, output; // x + y
set zx 0, set nx 1, set zy 0, set ny 0, set f 1, set no 1, eval, output; // x - y
set zx 0, set nx 0, set zy 0, set ny 1, set f 1, set no 1, eval, output; // y - x
set zx 0, set nx 0, set zy 0, set ny 0, set f 0, set no 0, eval, output; // x and y
set zx 0, set nx 1, set zy 0, set ny 1, set f 0, set no 1, eval, output; // x or y

set x -18, set y -4;
set zx 0, set nx 0, set zy 1, set ny 1, set f 0, set no 0, eval, output; // x
set zx 1, set nx 1, set zy 0, set ny 0, set f 0, set no 0, eval, output; // y
set zx 0, set nx 0, set zy 0, set ny 0, set f 1, set no 0, eval, output; // x + y
set zx 0, set nx 1, set zy 0, set ny 0, set f 1, set no 1, eval, output; // x - y
set zx 0, set nx 0, set zy 0, set ny 0, set f 0, set no 0, eval, output; // x and y
set zx 0, set nx 1, set zy 0, set ny 1, set f 0, set no 1, eval, output; // x or y

set x 21930, set y 13260;
set zx 1, set nx 0, set zy 1, set ny 0, set f 1, set no 0, eval, output; // 0
set zx 1, set nx 1, set zy 1, set ny 1, set f 1, set no 1, eval, output; // 1
set zx 1, set nx 1, set zy 1, set ny 0, set f 1, set no 0, eval, output; // -1
set zx 0, set nx 0, set zy 1, set ny 1, set f 0, set no 0, eval, output; // x
set zx 1, set nx 1, set zy 0, set ny 0, set f 0, set no 0, eval, output; // y
set zx 0, set nx 0, set zy 1, set ny 1, set f 0, set no 1, eval, output; // not x
set zx 1, set nx 1, set zy 0, set ny 0, set f 0, set no 1, eval, output; // not y
set zx 0, set nx 0, set zy 1, set ny 1, set f 1, set no 1, eval, output; // -x
set zx 1, set nx 1, set zy 0, set ny 0, set f 1, set no 1, eval, output; // -y
set zx 0, set nx 1, set zy 1, set ny 1, set f 1, set no 1, eval, output; // x + 1
set zx 1, set nx 1, set zy 0, set ny 1, set f 1, set no 1, eval, output; // y + 1
set zx 0, set nx 0, set zy 1, set ny 1, set f 1, set no 0, eval, output; // x - 1
set zx 1, set nx 1, set zy 0, set ny 0, set f 1, set no 0, eval, output; // y - 1
set zx 0, set nx 0, set zy 0, set ny 0, set f 1, set no 0, eval, output; // x + y
set zx 0, set nx 1, set zy 0, set ny 0, set f 1, set no 1, eval, output; // x - y
set zx 0, set nx 0, set zy 0, set ny 1, set f 1, set no 1, eval, output; // y - x
set zx 0, set nx 0, set zy 0, set ny 0, set f 0, set no 0, eval, output; // x and y
set zx 0, set nx 1, set zy 0, set ny 1, set f 0, set no 1, eval, output; // x or y

// results whose one half is 0: zr looks at all bits
set x 256, set y -32768;
set zx 0, set nx 0, set zy 1, set ny 1, set f 0, set no 0, eval, output; // x
set zx 1, set nx 1, set zy 0, set ny 0, set f 0, set no 0, eval, output; // y
set zx 0, set nx 0, set zy 0, set ny 0, set f 1, set no 0, eval, output; // x + y
set zx 0, set nx 1, set zy 0, set ny 0, set f 1, set no 1, eval, output; // x - y
set zx 0, set nx 0, set zy 0, set ny 0, set f 0, set no 0, eval, output; // x and y
set zx 0, set nx 1, set zy 0, set ny 1, set f 0, set no 1, eval, output; // x or y

set x 128, set y 1;
set zx 0, set nx 0, set zy 1, set ny 1, set f 0, set no 0, eval, output; // x
set zx 1, set nx 1, set zy 0, set ny 0, set f 0, set no 0, eval, output; // y
set zx 0, set nx 0, set zy 0, set ny 0, set f 1, set no 0, eval, output; // x + y
set zx 0, set nx 1, set zy 0, set ny 0, set f 1, set no 1, eval, output; // x - y
set zx 0, set nx 0, set zy 0, set ny 0, set f 0, set no 0, eval, output; // x and y
set zx 0, set nx 1, set zy 0, set ny 1, set f 0, set no 1, eval, output; // x or y
