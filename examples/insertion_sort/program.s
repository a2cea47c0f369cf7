# Sorts eight signed words where they lie. Each word in turn is taken out, the greater ones before it move up by one
# place, and it is put into the gap. The picture is the sorted row.
.output words,8,1
    la x5,words
    addi x6,x5,32             # the end
    addi x7,x5,4              # the place of the word that is taken out
take: lw x8,0(x7)
    addi x9,x7,0              # the gap
look: beq x9,x5,put           # nothing stands before the gap
    lw x12,-4(x9)
    bge x8,x12,put            # nothing greater does
    sw x12,0(x9)
    addi x9,x9,-4
    jal x0,look
put: sw x8,0(x9)
    addi x7,x7,4
    bne x7,x6,take
    ecall

.data
words: .word 31
    .word -4
    .word 15
    .word 9
    .word -26
    .word 5
    .word 35
    .word 9
