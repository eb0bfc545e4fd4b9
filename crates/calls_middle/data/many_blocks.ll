; A function of many blocks: the steps of the Collatz sequence from 1 to 9, each written out, and a phi
; of six predecessors.
@n = global [9 x i64] zeroinitializer, align 8
declare void @out(i64)
define void @f() {
entry:
  br label %next
next:
  %i = phi i64 [ 1, %entry ], [ %j, %counted ]
  br label %step
step:
  %x = phi i64 [ %i, %next ], [ %half, %even ], [ %more, %odd ]
  %k = phi i32 [ 0, %next ], [ %k1, %even ], [ %k2, %odd ]
  %one = icmp eq i64 %x, 1
  br i1 %one, label %done, label %parity
parity:
  %bit = trunc i64 %x to i1
  br i1 %bit, label %odd, label %even
even:
  %half = lshr i64 %x, 1
  %k1 = add i32 %k, 1
  br label %step
odd:
  %triple = mul i64 %x, 3
  %more = add i64 %triple, 1
  %k2 = add i32 %k, 1
  br label %step
done:
  %steps = zext i32 %k to i64
  call void @out(i64 %steps)
  %z = sub i64 %i, 1
  %p = getelementptr inbounds [9 x i64], ptr @n, i64 0, i64 %z
  store i64 %steps, ptr %p, align 8
  %c0 = icmp ult i64 %steps, 2
  br i1 %c0, label %few, label %t1
t1:
  %c1 = icmp ult i64 %steps, 4
  br i1 %c1, label %some, label %t2
t2:
  %c2 = icmp ult i64 %steps, 8
  br i1 %c2, label %more_than_three, label %t3
t3:
  %c3 = icmp slt i64 %steps, 17
  br i1 %c3, label %sixteen, label %t4
t4:
  %c4 = icmp sgt i64 %steps, 18
  br i1 %c4, label %many, label %counted
few:
  br label %counted
some:
  br label %counted
more_than_three:
  br label %counted
sixteen:
  br label %counted
many:
  br label %counted
counted:
  %class = phi i64 [ 6, %t4 ], [ 1, %few ], [ 2, %some ], [ 3, %more_than_three ], [ 4, %sixteen ], [ 5, %many ]
  call void @out(i64 %class)
  %j = add i64 %i, 1
  %last = icmp eq i64 %i, 9
  br i1 %last, label %end, label %next
end:
  ret void
}
