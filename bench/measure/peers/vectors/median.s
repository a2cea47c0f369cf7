# The median of a pixel of a padded input and its eight neighbours. l, m and h are the least, the middle and the
# greatest of three pixels down, 48 rows of 66 as in the input, so that one loop does all rows of each; a, b and c the
# greatest l, the middle m and the least h of three across, 48 rows of 64. The median is the middle of these.
.output o,64,48
    vsetivli x0,16,e32,m4,tu,mu
    la x5,in                  # three rows of the input
    addi x6,x5,264
    addi x7,x6,264
    la x8,l
    la x9,m                   # where l ends
l_run: vle32.v v4,(x5)
    vle32.v v8,(x6)
    vle32.v v12,(x7)
    vmin.vv v4,v4,v8
    vmin.vv v4,v4,v12
    vse32.v v4,(x8)
    addi x5,x5,64
    addi x6,x6,64
    addi x7,x7,64
    addi x8,x8,64
    bne x8,x9,l_run
    la x5,in
    addi x6,x5,264
    addi x7,x6,264
    la x9,h                   # where m ends; x8 is its beginning
m_run: vle32.v v4,(x5)
    vle32.v v8,(x6)
    vle32.v v12,(x7)
    vmin.vv v16,v4,v8
    vmax.vv v4,v4,v8
    vmin.vv v4,v4,v12
    vmax.vv v4,v4,v16
    vse32.v v4,(x8)
    addi x5,x5,64
    addi x6,x6,64
    addi x7,x7,64
    addi x8,x8,64
    bne x8,x9,m_run
    la x5,in
    addi x6,x5,264
    addi x7,x6,264
    la x9,a                   # where h ends
h_run: vle32.v v4,(x5)
    vle32.v v8,(x6)
    vle32.v v12,(x7)
    vmax.vv v4,v4,v8
    vmax.vv v4,v4,v12
    vse32.v v4,(x8)
    addi x5,x5,64
    addi x6,x6,64
    addi x7,x7,64
    addi x8,x8,64
    bne x8,x9,h_run
    la x5,l
    la x9,b                   # where a ends; x8 is its beginning
a_row: addi x6,x8,256
a_run: vle32.v v4,(x5)
    addi x5,x5,4
    vle32.v v8,(x5)
    addi x5,x5,4
    vle32.v v12,(x5)
    addi x5,x5,56
    vmax.vv v4,v4,v8
    vmax.vv v4,v4,v12
    vse32.v v4,(x8)
    addi x8,x8,64
    bne x8,x6,a_run
    addi x5,x5,8
    bne x8,x9,a_row
    la x9,c                   # where b ends; x5 has come to m
b_row: addi x6,x8,256
b_run: vle32.v v4,(x5)
    addi x5,x5,4
    vle32.v v8,(x5)
    addi x5,x5,4
    vle32.v v12,(x5)
    addi x5,x5,56
    vmin.vv v16,v4,v8
    vmax.vv v4,v4,v8
    vmin.vv v4,v4,v12
    vmax.vv v4,v4,v16
    vse32.v v4,(x8)
    addi x8,x8,64
    bne x8,x6,b_run
    addi x5,x5,8
    bne x8,x9,b_row
    la x9,o                   # where c ends; x5 has come to h
c_row: addi x6,x8,256
c_run: vle32.v v4,(x5)
    addi x5,x5,4
    vle32.v v8,(x5)
    addi x5,x5,4
    vle32.v v12,(x5)
    addi x5,x5,56
    vmin.vv v4,v4,v8
    vmin.vv v4,v4,v12
    vse32.v v4,(x8)
    addi x8,x8,64
    bne x8,x6,c_run
    addi x5,x5,8
    bne x8,x9,c_row
    la x5,a
    la x6,b
    la x7,c
    la x9,end
o_run: vle32.v v4,(x5)
    vle32.v v8,(x6)
    vle32.v v12,(x7)
    vmin.vv v16,v4,v8
    vmax.vv v4,v4,v8
    vmin.vv v4,v4,v12
    vmax.vv v4,v4,v16
    vse32.v v4,(x8)
    addi x5,x5,64
    addi x6,x6,64
    addi x7,x7,64
    addi x8,x8,64
    bne x8,x9,o_run
    ecall

.data
in: .space 13200
l: .space 12672
m: .space 12672
h: .space 12672
a: .space 12288
b: .space 12288
c: .space 12288
o: .space 12288
end:
