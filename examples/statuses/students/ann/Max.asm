D=A
