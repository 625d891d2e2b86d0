D=B
