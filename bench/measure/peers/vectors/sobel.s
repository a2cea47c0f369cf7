# Gradients over a padded input: dx, dy, and m, the sum of their magnitudes, at most 255.
.output m,64,48
    vsetivli x0,16,e32,m4,tu,mu
    la x5,in
    la x6,dx
    la x7,dy                  # where dx ends
dx_row: addi x8,x6,256
dx_run: vle32.v v4,(x5)       # rows 0, 1 and 2, at columns 0 and 2
    addi x5,x5,8
    vle32.v v8,(x5)
    addi x5,x5,256
    vle32.v v12,(x5)
    addi x5,x5,8
    vle32.v v16,(x5)
    addi x5,x5,256
    vle32.v v20,(x5)
    addi x5,x5,8
    vle32.v v24,(x5)
    addi x5,x5,-472           # row 0 again, 16 pixels on
    vsub.vv v16,v16,v12
    vsll.vi v16,v16,1
    vsub.vv v8,v8,v4
    vsub.vv v24,v24,v20
    vadd.vv v8,v8,v24
    vadd.vv v8,v8,v16
    vse32.v v8,(x6)
    addi x6,x6,64
    bne x6,x8,dx_run
    addi x5,x5,8
    bne x6,x7,dx_row
    la x5,in
    la x9,m                   # where dy ends; x7 is its beginning
dy_row: addi x8,x7,256
dy_run: vle32.v v4,(x5)       # rows 0 and 2, at columns 0, 1 and 2
    addi x5,x5,4
    vle32.v v8,(x5)
    addi x5,x5,4
    vle32.v v12,(x5)
    addi x5,x5,520
    vle32.v v16,(x5)
    addi x5,x5,4
    vle32.v v20,(x5)
    addi x5,x5,4
    vle32.v v24,(x5)
    addi x5,x5,-472
    vsub.vv v20,v20,v8
    vsll.vi v20,v20,1
    vsub.vv v16,v16,v4
    vsub.vv v24,v24,v12
    vadd.vv v16,v16,v24
    vadd.vv v16,v16,v20
    vse32.v v16,(x7)
    addi x7,x7,64
    bne x7,x8,dy_run
    addi x5,x5,8
    bne x7,x9,dy_row
    la x6,dx
    la x7,dy
    la x10,end
    addi x5,x0,255
run: vle32.v v4,(x6)
    vle32.v v8,(x7)
    vrsub.vi v12,v4,0
    vmax.vv v4,v4,v12
    vrsub.vi v12,v8,0
    vmax.vv v8,v8,v12
    vadd.vv v4,v4,v8
    vmin.vx v4,v4,x5
    vse32.v v4,(x9)
    addi x6,x6,64
    addi x7,x7,64
    addi x9,x9,64
    bne x9,x10,run
    ecall

.data
in: .space 13200
dx: .space 12288
dy: .space 12288
m: .space 12288
end:
