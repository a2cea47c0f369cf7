# Adds two rows of ten words in strips. Each round asks for as many elements as are left and is told how many it
# gets, four at most: the rounds have 4, 4 and 2. The picture is the row of sums.
.output sums,10,1
    la x5,left
    la x6,right
    la x7,sums
    li x8,10                  # elements left
next: vsetvli x9,x8,e32,m1,ta,ma
    vle32.v v1,(x5)
    vle32.v v2,(x6)
    vadd.vv v3,v1,v2
    vse32.v v3,(x7)
    slli x12,x9,2             # bytes of the x9 elements that this round had
    add x5,x5,x12
    add x6,x6,x12
    add x7,x7,x12
    sub x8,x8,x9
    bne x8,x0,next
    ecall

.data
left: .word 3
    .word 1
    .word 4
    .word 1
    .word 5
    .word 9
    .word 2
    .word 6
    .word 5
    .word -30
right: .word 10
    .word 20
    .word 30
    .word 40
    .word 50
    .word 60
    .word 70
    .word 80
    .word 90
    .word 10
sums: .space 40
