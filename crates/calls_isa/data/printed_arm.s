// target aarch64+lse
// entry @f 1 40
// site 0 3 1 6
// routine __atomic_load_16 5 6
.L1: ldr x1, [sp, #8]
.L2: dmb ish // stored
.L3: str x1, [x2, #0] // act
.L4: b .L5 // linked weak 3 -
.L5: bl __atomic_load_16 // call probe
.L6: ret // free 4
// end
