; A program: numbers of 128 bits, fractions, memory aligned to 16, and what it asks of the system.

@static.far = private unnamed_addr constant [3 x i8] c"abc", align 1
@static.leads = private unnamed_addr constant <{ ptr, [8 x i8] }> <{ ptr @static.far, [8 x i8] c"\03\00\00\00\00\00\00\00" }>, align 8
@static.again = private unnamed_addr constant <{ ptr, ptr }> <{ ptr @static.leads, ptr @static.again }>, align 8

declare { i64, i64 } @rattle_alloc(i64 noundef, i64 noundef)
declare void @rattle_dealloc(ptr noundef)
declare noundef i32 @open(ptr noundef, i32 noundef, ...)
declare i64 @__sysv_signal(i32, i64)
declare double @llvm.arithmetic.fence.f64(double)
declare i128 @llvm.umin.i128(i128, i128)
declare i128 @llvm.umax.i128(i128, i128)
declare i128 @llvm.smin.i128(i128, i128)
declare i128 @llvm.smax.i128(i128, i128)
declare i128 @llvm.usub.sat.i128(i128, i128)
declare i64 @llvm.ctlz.i64(i64, i1)
declare i8 @llvm.ctlz.i8(i8, i1)
declare i64 @llvm.abs.i64(i64, i1)

define internal i128 @wide(i64 %a, i64 %b, ptr %p, i128 %w) {
  %x = zext i64 %a to i128
  %y = sext i64 %b to i128
  %sum = add i128 %x, %y
  %less = sub i128 %sum, -5
  %times = mul i128 %less, %w
  %and = and i128 %times, 36893488147419103231
  %or = or i128 %and, %x
  %xor = xor i128 %or, -1
  %count = and i128 %y, 100
  %left = shl i128 %xor, %count
  %right = lshr i128 %left, 70
  store i128 %right, ptr %p, align 16
  %loaded = load i128, ptr %p, align 1
  %u = icmp ult i128 %loaded, %w
  %s = icmp sgt i128 %loaded, %w
  %e = icmp ne i128 %x, %y
  %g = icmp uge i128 %y, %w
  %us = and i1 %u, %s
  %eg = xor i1 %e, %g
  %all = or i1 %us, %eg
  %chosen = select i1 %all, i128 %loaded, i128 18446744073709551616
  %1 = call i128 @llvm.umin.i128(i128 %chosen, i128 %x)
  %2 = call i128 @llvm.umax.i128(i128 %1, i128 %y)
  %3 = call i128 @llvm.smin.i128(i128 %2, i128 %w)
  %4 = call i128 @llvm.smax.i128(i128 %3, i128 7)
  %5 = call i128 @llvm.usub.sat.i128(i128 %4, i128 %x)
  ret i128 %5
}

define internal i64 @halves(i128 %w, i8 %c) {
  %low = trunc i128 %w to i64
  %shifted = lshr i128 %w, 64
  %high = trunc i128 %shifted to i64
  %zeros = call i64 @llvm.ctlz.i64(i64 %high, i1 false)
  %size = call i64 @llvm.abs.i64(i64 %low, i1 false)
  %few = call i8 @llvm.ctlz.i8(i8 %c, i1 false)
  %more = zext i8 %few to i64
  %sum = add i64 %zeros, %size
  %all = add i64 %sum, %more
  ret i64 %all
}

define internal double @fractions(i64 %n, double %d, ptr %p) {
start:
  %x = uitofp i64 %n to double
  %sum = fadd double %x, %d
  %less = fsub double %sum, 1.500000e+00
  %times = fmul double %less, 0x41F0000000000000
  %part = fdiv double %times, %d
  %kept = call double @llvm.arithmetic.fence.f64(double %part)
  %other = fneg double %kept
  %bits = bitcast double %other to i64
  store i64 %bits, ptr %p, align 8
  store double %kept, ptr %p, align 8
  %again = load double, ptr %p, align 8
  %number = bitcast i64 %n to double
  %ord = fcmp ord double %again, 0.000000e+00
  br i1 %ord, label %first, label %last
first:
  %olt = fcmp olt double %again, %number
  %ugt = fcmp ugt double %d, %number
  %oeq = fcmp oeq double %x, %number
  %one = and i1 %olt, %ugt
  %two = or i1 %one, %oeq
  br i1 %two, label %second, label %last
second:
  %ole = fcmp ole double %again, %number
  %uge = fcmp uge double %d, %number
  %une = fcmp une double %x, %number
  %three = and i1 %ole, %uge
  %four = or i1 %three, %une
  %found = select i1 %four, double %again, double 0.000000e+00
  br label %last
last:
  %result = phi double [ %d, %start ], [ 1.000000e+00, %first ], [ %found, %second ]
  ret double %result
}

define internal i64 @memory(i64 %n) {
  %aligned = alloca [32 x i8], align 16
  %narrow = alloca [8 x i8], align 8
  %place = getelementptr inbounds i8, ptr %aligned, i64 16
  store i64 %n, ptr %place, align 16
  store i64 %n, ptr %narrow, align 8
  %far = icmp ugt i64 %n, xor (i64 ptrtoint (ptr @static.again to i64), i64 -1)
  %loaded = load i64, ptr %aligned, align 16
  %result = select i1 %far, i64 %loaded, i64 1
  ret i64 %result
}

define i32 @main() {
  %block = call { i64, i64 } @rattle_alloc(i64 16, i64 8)
  %is_there = extractvalue { i64, i64 } %block, 0
  %number = extractvalue { i64, i64 } %block, 1
  %address = inttoptr i64 %number to ptr
  %file = call noundef i32 (ptr, i32, ...) @open(ptr @static.far, i32 524288)
  %old = call i64 @__sysv_signal(i32 13, i64 1)
  %w = call i128 @wide(i64 %is_there, i64 %old, ptr %address, i128 3)
  %h = call i64 @halves(i128 %w, i8 7)
  %d = call double @fractions(i64 %h, double 2.500000e+00, ptr %address)
  %bits = bitcast double %d to i64
  %r = call i64 @memory(i64 %bits)
  call void @rattle_dealloc(ptr %address)
  %low = trunc i64 %r to i32
  switch i32 %low, label %else [
    i32 1, label %end
  ], !prof !1

else:
  br label %end

end:
  %status = phi i32 [ 0, %0 ], [ %file, %else ]
  ret i32 %status
}
