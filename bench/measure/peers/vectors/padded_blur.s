# A blur over a padded input: bx across, 50 rows of 64, then by down. Quotients round to minus infinity.
.output by,64,48
    vsetivli x0,16,e32,m4,tu,mu
    addi x5,x0,3              # the divisor
    la x6,in
    la x7,bx
    la x8,by                  # where bx ends
row: addi x9,x7,256           # where the row of bx ends
across: vle32.v v4,(x6)
    addi x6,x6,4
    vle32.v v8,(x6)
    addi x6,x6,4
    vle32.v v12,(x6)
    addi x6,x6,56             # 16 pixels on
    vadd.vv v4,v4,v8
    vadd.vv v4,v4,v12
    vsra.vi v8,v4,31
    vxor.vv v4,v4,v8
    vdivu.vx v4,v4,x5
    vxor.vv v4,v4,v8
    vse32.v v4,(x7)
    addi x7,x7,64
    bne x7,x9,across
    addi x6,x6,8              # past the two columns of padding
    bne x7,x8,row
    la x6,bx                  # the three rows that a pixel reads; rows follow one another, so one loop does all
    addi x7,x6,256
    addi x9,x7,256
    la x10,end
down: vle32.v v4,(x6)
    vle32.v v8,(x7)
    vle32.v v12,(x9)
    vadd.vv v4,v4,v8
    vadd.vv v4,v4,v12
    vsra.vi v8,v4,31
    vxor.vv v4,v4,v8
    vdivu.vx v4,v4,x5
    vxor.vv v4,v4,v8
    vse32.v v4,(x8)
    addi x6,x6,64
    addi x7,x7,64
    addi x9,x9,64
    addi x8,x8,64
    bne x8,x10,down
    ecall

.data
in: .space 13200
bx: .space 12800
by: .space 12288
end:
