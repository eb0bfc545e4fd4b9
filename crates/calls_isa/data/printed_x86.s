# target x86-64
# entry @f 1 40
# site 0 3 1 6
# routine __atomic_load_16 5 6
.L1: movq 8(%rsp), %rcx
.L2: mfence # stored
.L3: lock xaddq %rcx, 0(%rbp) # act
.L4: jmp .L5 # linked weak 3 -
.L5: call __atomic_load_16 # call probe
.L6: ret # free 4
# end
