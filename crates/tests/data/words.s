lui x10,0x80000
lui x31,0xfffff
lui x0,0x0
auipc x11,0x1
auipc x5,0x12345
jal x1,.+16
jal x0,.-4
jal x31,.+1048574
jal x5,.-1048576
jal x1,.+2048
jal x1,.+4096
jalr x1,-4(x2)
jalr x0,0(x1)
jalr x31,2047(x30)
beq x1,x2,.+16
bne x3,x0,.-4
blt x5,x6,.+4094
bge x31,x30,.-4096
bltu x8,x9,.+2048
bgeu x10,x11,.+30
lb x1,-2048(x2)
lh x3,2047(x4)
lw x5,0(x6)
ld x7,8(x8)
lbu x9,-1(x10)
lhu x11,2(x12)
lwu x31,4(x0)
sb x1,-2048(x2)
sh x3,2047(x4)
sw x5,31(x6)
sd x7,-32(x8)
addi x10,x0,1
addi x0,x0,0
addi x12,x0,-1
slti x1,x2,-2048
sltiu x3,x4,2047
xori x5,x6,-1
ori x7,x8,85
andi x9,x10,255
slli x10,x10,0x20
slli x1,x2,0x0
srli x3,x4,0x3f
srai x5,x6,0x21
add x1,x2,x3
sub x4,x5,x6
sll x7,x8,x9
slt x10,x11,x12
sltu x13,x14,x15
xor x16,x17,x18
srl x19,x20,x21
sra x22,x23,x24
or x25,x26,x27
and x28,x29,x30
addiw x1,x2,-1
addiw x31,x0,2047
slliw x1,x2,0x1f
srliw x3,x4,0x1
sraiw x5,x6,0x10
addw x1,x2,x3
subw x4,x5,x6
sllw x7,x8,x9
srlw x10,x11,x12
sraw x31,x30,x29
fence iorw,iorw
fence rw,w
fence r,io
fence.tso
.insn i 0x0f,0,x1,x2,5
.insn i 0x0f,0,x0,x0,0
.insn i 0x0f,0,x0,x31,-2048
csrrw x1,sstatus,x2
csrrs x3,sie,x0
csrrc x0,stvec,x4
csrrw x5,sscratch,x6
csrrs x7,sepc,x8
csrrc x9,scause,x10
csrrs x11,stval,x0
csrrwi x1,sip,5
csrrsi x0,satp,31
csrrci x2,0x5c0,0
ecall
ebreak
sret
wfi
