# Each hart adds 1 to one word of data, by one atomic addition, and finishes. The word is a picture of one pixel: it
# ends as the number of harts, whatever the order of their turns.
.output count,1,1
    lui x5,0x200              # where data begins
    addi x6,x0,1
    amoadd.w x7,x6,(x5)       # x7: the count before this hart's addition
    ecall
.data
count: .word 0
