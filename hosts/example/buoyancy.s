# An evaluation program as a laboratory sends one: it corrects readings for buoyancy, in place, and sums them.
#
# a0: the address of the readings, 64-bit numbers; a1: how many there are; a2: where their sum is stored.
# Air of 1.2 kg/m3 against steel of 8,000 takes 1 part in 6,667 off a reading; here 1 in 8,192, a shift.
#
# buoyancy.bin is this file's text, a page of it:
#   clang --target=riscv64 -march=rv64i -mno-relax -c buoyancy.s -o buoyancy.o && llvm-objcopy -O binary buoyancy.o buoyancy.bin
next:
    beq  a1, zero, done
    ld   t0, 0(a0)
    srli t1, t0, 13
    sub  t0, t0, t1
    sd   t0, 0(a0)
    add  a3, a3, t0
    addi a0, a0, 8
    addi a1, a1, -1
    jal  zero, next
done:
    sd   a3, 0(a2)
    ecall
    .zero 4096 - 11 * 4
