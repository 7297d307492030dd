; Numbers: shifts, widths that C hasn't, comparisons, and what LLVM's own functions answer. by_hand.py says how it is used.

define internal void @put(ptr %to, i64 %at, i64 %value) {
  %place = getelementptr inbounds i64, ptr %to, i64 %at
  store i64 %value, ptr %place, align 8
  ret void
}

; Shifts by %by places, or 0 where that is as many as the type has, or more: LLVM leaves those open, and C leaves all open.
define void @ndef_shifts(i64 %x, i64 %by, ptr %to) {
  %fits64 = icmp ult i64 %by, 64
  %mask64 = sext i1 %fits64 to i64
  %left64 = shl i64 %x, %by
  %left64.f = freeze i64 %left64
  %left64.m = and i64 %left64.f, %mask64
  call void @put(ptr %to, i64 0, i64 %left64.m)
  %right64 = lshr i64 %x, %by
  %right64.f = freeze i64 %right64
  %right64.m = and i64 %right64.f, %mask64
  call void @put(ptr %to, i64 1, i64 %right64.m)
  %signed64 = ashr i64 %x, %by
  %signed64.f = freeze i64 %signed64
  %signed64.m = and i64 %signed64.f, %mask64
  call void @put(ptr %to, i64 2, i64 %signed64.m)
  %x32 = trunc i64 %x to i32
  %by32 = trunc i64 %by to i32
  %fits32 = icmp ult i32 %by32, 32
  %mask32 = sext i1 %fits32 to i32
  %left32 = shl i32 %x32, %by32
  %right32 = lshr i32 %x32, %by32
  %signed32 = ashr i32 %x32, %by32
  %left32.f = freeze i32 %left32
  %right32.f = freeze i32 %right32
  %signed32.f = freeze i32 %signed32
  %left32.m = and i32 %left32.f, %mask32
  %right32.m = and i32 %right32.f, %mask32
  %signed32.m = and i32 %signed32.f, %mask32
  %left32.z = zext i32 %left32.m to i64
  %right32.z = zext i32 %right32.m to i64
  %signed32.z = zext i32 %signed32.m to i64
  call void @put(ptr %to, i64 3, i64 %left32.z)
  call void @put(ptr %to, i64 4, i64 %right32.z)
  call void @put(ptr %to, i64 5, i64 %signed32.z)
  %x8 = trunc i64 %x to i8
  %by8 = trunc i64 %by to i8
  %fits8 = icmp ult i8 %by8, 8
  %mask8 = sext i1 %fits8 to i8
  %left8 = shl i8 %x8, %by8
  %right8 = lshr i8 %x8, %by8
  %signed8 = ashr i8 %x8, %by8
  %left8.f = freeze i8 %left8
  %right8.f = freeze i8 %right8
  %signed8.f = freeze i8 %signed8
  %left8.m = and i8 %left8.f, %mask8
  %right8.m = and i8 %right8.f, %mask8
  %signed8.m = and i8 %signed8.f, %mask8
  %left8.z = zext i8 %left8.m to i64
  %right8.z = zext i8 %right8.m to i64
  %signed8.z = zext i8 %signed8.m to i64
  call void @put(ptr %to, i64 6, i64 %left8.z)
  call void @put(ptr %to, i64 7, i64 %right8.z)
  call void @put(ptr %to, i64 8, i64 %signed8.z)
  %far = shl i64 %x, 64
  %far.f = freeze i64 %far
  %far.m = and i64 %far.f, 0
  call void @put(ptr %to, i64 9, i64 %far.m)
  ret void
}

; What is left of a number in 1, 6, 24 and 48 bits.
define void @ndef_cuts(i64 %x, ptr %to) {
  %one = trunc i64 %x to i1
  %six = trunc i64 %x to i6
  %day = trunc i64 %x to i24
  %two = trunc i64 %x to i48
  %one.z = zext i1 %one to i64
  %six.z = zext i6 %six to i64
  %day.z = zext i24 %day to i64
  %two.z = zext i48 %two to i64
  call void @put(ptr %to, i64 0, i64 %one.z)
  call void @put(ptr %to, i64 1, i64 %six.z)
  call void @put(ptr %to, i64 2, i64 %day.z)
  call void @put(ptr %to, i64 3, i64 %two.z)
  %one.s = sext i1 %one to i64
  %six.s = sext i6 %six to i16
  %six.t = zext i16 %six.s to i64
  %day.s = sext i24 %day to i32
  %day.t = zext i32 %day.s to i64
  %two.s = sext i48 %two to i64
  call void @put(ptr %to, i64 4, i64 %one.s)
  call void @put(ptr %to, i64 5, i64 %six.t)
  call void @put(ptr %to, i64 6, i64 %day.t)
  call void @put(ptr %to, i64 7, i64 %two.s)
  %narrow = trunc i24 %day to i6
  %narrow.z = zext i6 %narrow to i64
  call void @put(ptr %to, i64 8, i64 %narrow.z)
  br i1 %one, label %odd, label %even
odd:
  call void @put(ptr %to, i64 9, i64 111)
  ret void
even:
  call void @put(ptr %to, i64 9, i64 222)
  ret void
}

; Arithmetic in 6 bits, which wraps at 64, and of 8 and 16 bits, where C counts in its own int.
define void @ndef_narrow(i64 %x, i64 %y, ptr %to) {
  %a = trunc i64 %x to i6
  %b = trunc i64 %y to i6
  %sum = add i6 %a, %b
  %difference = sub i6 %a, %b
  %product = mul i6 %a, %b
  %moved = shl i6 %a, 2
  %back = ashr i6 %a, 2
  %other = xor i6 %a, -1
  %sum.z = zext i6 %sum to i64
  %difference.z = zext i6 %difference to i64
  %product.z = zext i6 %product to i64
  %moved.z = zext i6 %moved to i64
  %back.z = zext i6 %back to i64
  %other.z = zext i6 %other to i64
  call void @put(ptr %to, i64 0, i64 %sum.z)
  call void @put(ptr %to, i64 1, i64 %difference.z)
  call void @put(ptr %to, i64 2, i64 %product.z)
  call void @put(ptr %to, i64 3, i64 %moved.z)
  call void @put(ptr %to, i64 4, i64 %back.z)
  call void @put(ptr %to, i64 5, i64 %other.z)
  %c = trunc i64 %x to i8
  %d = trunc i64 %y to i8
  %sum8 = add i8 %c, %d
  %halved = lshr i8 %sum8, 1
  %halved.z = zext i8 %halved to i64
  call void @put(ptr %to, i64 6, i64 %halved.z)
  %e = trunc i64 %x to i16
  %f = trunc i64 %y to i16
  %product16 = mul i16 %e, %f
  %quarter = udiv i16 %product16, 4
  %rest = urem i16 %product16, 10
  %quarter.z = zext i16 %quarter to i64
  %rest.z = zext i16 %rest to i64
  call void @put(ptr %to, i64 7, i64 %quarter.z)
  call void @put(ptr %to, i64 8, i64 %rest.z)
  %less = sub i8 %c, %d
  %is.less = icmp ugt i8 %less, 100
  %chosen = select i1 %is.less, i8 %less, i8 7
  %chosen.z = zext i8 %chosen to i64
  call void @put(ptr %to, i64 9, i64 %chosen.z)
  ret void
}

; Which comparisons hold: bit 0 `ult` of 8 bits, 1 `slt` of 8, 2 `slt` of 6, 3 `sge` of 1 bit, 4 `slt` of 64, 5 `ugt` of 64, 6 not equal in 24.
define i32 @ndef_compared(i64 %x, i64 %y) {
  %a8 = trunc i64 %x to i8
  %b8 = trunc i64 %y to i8
  %a6 = trunc i64 %x to i6
  %b6 = trunc i64 %y to i6
  %a1 = trunc i64 %x to i1
  %b1 = trunc i64 %y to i1
  %a24 = trunc i64 %x to i24
  %b24 = trunc i64 %y to i24
  %c0 = icmp ult i8 %a8, %b8
  %c1 = icmp slt i8 %a8, %b8
  %c2 = icmp slt i6 %a6, %b6
  %c3 = icmp sge i1 %a1, %b1
  %c4 = icmp slt i64 %x, %y
  %c5 = icmp ugt i64 %x, %y
  %c6 = icmp ne i24 %a24, %b24
  %z0 = zext i1 %c0 to i32
  %s1 = select i1 %c1, i32 2, i32 0
  %s2 = select i1 %c2, i32 4, i32 0
  %s3 = select i1 %c3, i32 8, i32 0
  %s4 = select i1 %c4, i32 16, i32 0
  %s5 = select i1 %c5, i32 32, i32 0
  %s6 = select i1 %c6, i32 64, i32 0
  %o1 = or disjoint i32 %z0, %s1
  %o2 = or disjoint i32 %o1, %s2
  %o3 = or disjoint i32 %o2, %s3
  %o4 = or disjoint i32 %o3, %s4
  %o5 = or disjoint i32 %o4, %s5
  %o6 = or disjoint i32 %o5, %s6
  ret i32 %o6
}

; Truth values: and, or, not, equal, and what two differ in.
define i32 @ndef_truths(i32 %x, i32 %y) {
  %a = icmp ugt i32 %x, 9
  %b = icmp ugt i32 %y, 9
  %both = and i1 %a, %b
  %one = or i1 %a, %b
  %not = xor i1 %a, true
  %apart = xor i1 %a, %b
  %sum = add i1 %a, %b
  %same = icmp eq i1 %a, %b
  %v0 = zext i1 %both to i32
  %v1 = select i1 %one, i32 2, i32 0
  %v2 = select i1 %not, i32 4, i32 0
  %v3 = select i1 %apart, i32 8, i32 0
  %v4 = select i1 %sum, i32 16, i32 0
  %v5 = select i1 %same, i32 32, i32 0
  %o1 = or i32 %v0, %v1
  %o2 = or i32 %o1, %v2
  %o3 = or i32 %o2, %v3
  %o4 = or i32 %o3, %v4
  %o5 = or i32 %o4, %v5
  ret i32 %o5
}

; A number made of more operations than an expression of C is to hold.
define void @ndef_deep(i64 %x, ptr %to) {
  %a1 = add i64 %x, 1
  %a2 = mul i64 %a1, 3
  %a3 = xor i64 %a2, 5
  %a4 = sub i64 %a3, 7
  %a5 = mul i64 %a4, 3
  %a6 = add i64 %a5, 11
  %a7 = xor i64 %a6, 13
  %a8 = sub i64 %a7, 17
  %a9 = mul i64 %a8, 3
  %a10 = add i64 %a9, 19
  %a11 = xor i64 %a10, 23
  %a12 = sub i64 %a11, 29
  %a13 = mul i64 %a12, 3
  %a14 = add i64 %a13, 31
  %a15 = xor i64 %a14, 37
  %a16 = sub i64 %a15, 41
  store i64 %a16, ptr %to, align 8
  ret void
}

declare i8 @llvm.umin.i8(i8, i8)
declare i64 @llvm.umax.i64(i64, i64)
declare i16 @llvm.smin.i16(i16, i16)
declare i32 @llvm.smax.i32(i32, i32)
declare i8 @llvm.usub.sat.i8(i8, i8)
declare i64 @llvm.usub.sat.i64(i64, i64)
declare i8 @llvm.uadd.sat.i8(i8, i8)
declare i32 @llvm.uadd.sat.i32(i32, i32)
declare i64 @llvm.cttz.i64(i64, i1 immarg)
declare i16 @llvm.cttz.i16(i16, i1 immarg)
declare i16 @llvm.bswap.i16(i16)
declare i32 @llvm.bswap.i32(i32)
declare i64 @llvm.bswap.i64(i64)

; What LLVM's own functions answer.
define void @ndef_own(i64 %x, i64 %y, ptr %to) {
  %a8 = trunc i64 %x to i8
  %b8 = trunc i64 %y to i8
  %a16 = trunc i64 %x to i16
  %b16 = trunc i64 %y to i16
  %a32 = trunc i64 %x to i32
  %b32 = trunc i64 %y to i32
  %r0 = call i8 @llvm.umin.i8(i8 %a8, i8 %b8)
  %z0 = zext i8 %r0 to i64
  call void @put(ptr %to, i64 0, i64 %z0)
  %r1 = call i64 @llvm.umax.i64(i64 %x, i64 %y)
  call void @put(ptr %to, i64 1, i64 %r1)
  %r2 = call i16 @llvm.smin.i16(i16 %a16, i16 %b16)
  %z2 = zext i16 %r2 to i64
  call void @put(ptr %to, i64 2, i64 %z2)
  %r3 = call i32 @llvm.smax.i32(i32 %a32, i32 %b32)
  %z3 = zext i32 %r3 to i64
  call void @put(ptr %to, i64 3, i64 %z3)
  %r4 = call i8 @llvm.usub.sat.i8(i8 %a8, i8 %b8)
  %z4 = zext i8 %r4 to i64
  call void @put(ptr %to, i64 4, i64 %z4)
  %r5 = call i64 @llvm.usub.sat.i64(i64 %x, i64 %y)
  call void @put(ptr %to, i64 5, i64 %r5)
  %r6 = call i8 @llvm.uadd.sat.i8(i8 %a8, i8 %b8)
  %z6 = zext i8 %r6 to i64
  call void @put(ptr %to, i64 6, i64 %z6)
  %r7 = call i32 @llvm.uadd.sat.i32(i32 %a32, i32 %b32)
  %z7 = zext i32 %r7 to i64
  call void @put(ptr %to, i64 7, i64 %z7)
  %r8 = call i64 @llvm.cttz.i64(i64 %x, i1 false)
  call void @put(ptr %to, i64 8, i64 %r8)
  %r9 = call i16 @llvm.cttz.i16(i16 %a16, i1 false)
  %z9 = zext i16 %r9 to i64
  call void @put(ptr %to, i64 9, i64 %z9)
  %r10 = call i16 @llvm.bswap.i16(i16 %a16)
  %z10 = zext i16 %r10 to i64
  call void @put(ptr %to, i64 10, i64 %z10)
  %r11 = call i32 @llvm.bswap.i32(i32 %a32)
  %z11 = zext i32 %r11 to i64
  call void @put(ptr %to, i64 11, i64 %z11)
  %r12 = call i64 @llvm.bswap.i64(i64 %x)
  call void @put(ptr %to, i64 12, i64 %r12)
  ret void
}

; Orders that allow equal numbers, and a truth value of two comparisons.
define i32 @ndef_ordered(i32 %x, i32 %y) {
  %a = icmp ule i32 %x, %y
  %b = icmp ne i32 %x, 7
  %c = and i1 %a, %b
  %d = xor i1 %c, true
  %e = icmp uge i32 %y, 9
  %f = or i1 %d, %e
  %z = zext i1 %f to i32
  ret i32 %z
}
