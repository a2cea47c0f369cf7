# The least of a pixel of a padded input and its eight neighbours.
.output e,64,48
    vsetivli x0,16,e32,m4,tu,mu
    la x5,in
    la x6,e
    la x7,end
row: addi x8,x6,256
run: vle32.v v4,(x5)
    addi x5,x5,4
    vle32.v v8,(x5)
    addi x5,x5,4
    vle32.v v12,(x5)
    addi x5,x5,256            # the second row
    vmin.vv v4,v4,v8
    vmin.vv v4,v4,v12
    vle32.v v8,(x5)
    addi x5,x5,4
    vle32.v v12,(x5)
    addi x5,x5,4
    vle32.v v16,(x5)
    addi x5,x5,256            # the third
    vmin.vv v4,v4,v8
    vmin.vv v4,v4,v12
    vmin.vv v4,v4,v16
    vle32.v v8,(x5)
    addi x5,x5,4
    vle32.v v12,(x5)
    addi x5,x5,4
    vle32.v v16,(x5)
    addi x5,x5,-472           # the first, 16 pixels on
    vmin.vv v4,v4,v8
    vmin.vv v4,v4,v12
    vmin.vv v4,v4,v16
    vse32.v v4,(x6)
    addi x6,x6,64
    bne x6,x8,run
    addi x5,x5,8
    bne x6,x7,row
    ecall

.data
in: .space 13200
e: .space 12288
end:
