# target rv64
# entry @f 1 40
# site 0 3 1 6
# routine __atomic_load_16 5 6
.L1: ld t0, -2048(t1)
.L2: fence r, rw # stored
.L3: amoadd.d.aqrl t0, t2, (t1) # act
.L4: j .L5 # linked weak 3 -
.L5: jal ra, __atomic_load_16 # call probe
.L6: ret # free 4
# end
