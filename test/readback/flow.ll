; Ways between blocks, structs, and calls. by_hand.py says how it is used.

; Steps of a loop in which two values change places, and a third takes the sum of both: what each gets is of before the step.
define i32 @ndef_swapped(i32 %a, i32 %b, i32 %steps, ptr %to) {
entry:
  %none = icmp eq i32 %steps, 0
  br i1 %none, label %end, label %step
step:
  %x = phi i32 [ %a, %entry ], [ %y, %step ]
  %y = phi i32 [ %b, %entry ], [ %x, %step ]
  %sum = phi i32 [ 0, %entry ], [ %next, %step ]
  %left = phi i32 [ %steps, %entry ], [ %less, %step ]
  %twice = shl i32 %x, 1
  %next = add i32 %twice, %y
  %less = add i32 %left, -1
  %is.last = icmp eq i32 %less, 0
  br i1 %is.last, label %end, label %step
end:
  %x.end = phi i32 [ %a, %entry ], [ %y, %step ]
  %y.end = phi i32 [ %b, %entry ], [ %x, %step ]
  %sum.end = phi i32 [ 5, %entry ], [ %sum, %step ]
  store i32 %x.end, ptr %to, align 4
  %to.1 = getelementptr inbounds i8, ptr %to, i64 4
  store i32 %y.end, ptr %to.1, align 4
  ret i32 %sum.end
}

; Three values turn in a ring, and a pair of a struct and a truth value goes with them.
define i32 @ndef_ring(i64 %steps) {
  br label %step
step:
  %a = phi i8 [ 1, %0 ], [ %b, %again ]
  %b = phi i8 [ 2, %0 ], [ %c, %again ]
  %c = phi i8 [ 3, %0 ], [ %a, %again ]
  %is.odd = phi i1 [ false, %0 ], [ %is.even, %again ]
  %pair = phi { i8, i32 } [ { i8 4, i32 5 }, %0 ], [ %next, %again ]
  %left = phi i64 [ %steps, %0 ], [ %less, %again ]
  %is.even = xor i1 %is.odd, true
  %done = icmp eq i64 %left, 0
  br i1 %done, label %end, label %again
again:
  %less = sub i64 %left, 1
  %old = extractvalue { i8, i32 } %pair, 1
  %new = mul i32 %old, 10
  %next = insertvalue { i8, i32 } %pair, i32 %new, 1
  br label %step
end:
  %a.z = zext i8 %a to i32
  %c.z = zext i8 %c to i32
  %c.s = shl i32 %c.z, 4
  %odd = select i1 %is.odd, i32 4096, i32 0
  %four = extractvalue { i8, i32 } %pair, 0
  %four.z = zext i8 %four to i32
  %four.s = shl i32 %four.z, 8
  %five = extractvalue { i8, i32 } %pair, 1
  %five.s = shl i32 %five, 16
  %o1 = or i32 %a.z, %c.s
  %o2 = or i32 %o1, %odd
  %o3 = or i32 %o2, %four.s
  %o4 = or i32 %o3, %five.s
  ret i32 %o4
}

; A choice of numbers, with one below 0, two ways to the same block, and all others.
define i32 @ndef_choice(i8 %x, i64 %y) {
entry:
  switch i8 %x, label %others [
    i8 0, label %low
    i8 -1, label %low
    i8 5, label %five
    i8 -128, label %end
  ]
low:
  %which = phi i32 [ 10, %entry ], [ 10, %entry ]
  br label %end
five:
  switch i64 %y, label %end [
    i64 -2, label %two
    i64 4294967296, label %others
  ]
two:
  br label %end
others:
  %from = phi i32 [ 30, %entry ], [ 31, %five ]
  %same = phi i32 [ 1, %entry ], [ 1, %five ]
  %sum = add i32 %from, %same
  br label %end
end:
  %value = phi i32 [ %which, %low ], [ 20, %five ], [ 22, %two ], [ %sum, %others ], [ 40, %entry ]
  ret i32 %value
}

; Both ways lead to one block, with two values or with one.
define i32 @ndef_both(i32 %x) {
entry:
  %is.small = icmp ult i32 %x, 10
  br i1 %is.small, label %next, label %next
next:
  %value = phi i32 [ 3, %entry ], [ 3, %entry ]
  %is.odd = trunc i32 %x to i1
  br i1 %is.odd, label %end, label %other
other:
  br label %end
end:
  %result = phi i32 [ %value, %next ], [ %x, %other ]
  ret i32 %result
}

; A struct within a struct, whose parts are put in and taken out one by one.
define internal { i64, { i32, i8 }, i1 } @nested(i64 %x, i32 %y, i8 %z) {
  %a = insertvalue { i32, i8 } poison, i32 %y, 0
  %b = insertvalue { i32, i8 } %a, i8 %z, 1
  %c = insertvalue { i64, { i32, i8 }, i1 } poison, i64 %x, 0
  %d = insertvalue { i64, { i32, i8 }, i1 } %c, { i32, i8 } %b, 1
  %e = icmp eq i8 %z, 0
  %f = insertvalue { i64, { i32, i8 }, i1 } %d, i1 %e, 2
  ret { i64, { i32, i8 }, i1 } %f
}

; Fields of the same types, and other structs around them.
define internal { { i64, i32 }, i8, i1 } @otherwise(i64 %x, i1 %is) {
  %a = insertvalue { { i64, i32 }, i8, i1 } { { i64, i32 } { i64 1, i32 2 }, i8 3, i1 true }, i1 %is, 2
  %b = select i1 %is, { { i64, i32 }, i8, i1 } %a, { { i64, i32 }, i8, i1 } { { i64, i32 } { i64 7, i32 8 }, i8 9, i1 true }
  ret { { i64, i32 }, i8, i1 } %b
}

define void @ndef_nested(i64 %x, i32 %y, i8 %z, ptr %to) {
  %all = call { i64, { i32, i8 }, i1 } @nested(i64 %x, i32 %y, i8 %z)
  %number = extractvalue { i64, { i32, i8 }, i1 } %all, 0
  %inner = extractvalue { i64, { i32, i8 }, i1 } %all, 1
  %half = extractvalue { i32, i8 } %inner, 0
  %byte = extractvalue { i32, i8 } %inner, 1
  %is = extractvalue { i64, { i32, i8 }, i1 } %all, 2
  %half.z = zext i32 %half to i64
  %byte.z = zext i8 %byte to i64
  %is.z = zext i1 %is to i64
  store i64 %number, ptr %to, align 8
  %to.1 = getelementptr inbounds i64, ptr %to, i64 1
  store i64 %half.z, ptr %to.1, align 8
  %to.2 = getelementptr inbounds i64, ptr %to, i64 2
  store i64 %byte.z, ptr %to.2, align 8
  %to.3 = getelementptr inbounds i64, ptr %to, i64 3
  store i64 %is.z, ptr %to.3, align 8
  %other = call { { i64, i32 }, i8, i1 } @otherwise(i64 %x, i1 %is)
  %pair = extractvalue { { i64, i32 }, i8, i1 } %other, 0
  %first = extractvalue { i64, i32 } %pair, 0
  %second = extractvalue { i64, i32 } %pair, 1
  %third = extractvalue { { i64, i32 }, i8, i1 } %other, 1
  %second.z = zext i32 %second to i64
  %third.z = zext i8 %third to i64
  %to.4 = getelementptr inbounds i64, ptr %to, i64 4
  store i64 %first, ptr %to.4, align 8
  %to.5 = getelementptr inbounds i64, ptr %to, i64 5
  store i64 %second.z, ptr %to.5, align 8
  %to.6 = getelementptr inbounds i64, ptr %to, i64 6
  store i64 %third.z, ptr %to.6, align 8
  ret void
}

; A pair whose two parts change places, each put in before the other is taken out.
define i32 @ndef_turned(i32 %x, i32 %y) {
  %a = insertvalue { i32, i32 } poison, i32 %x, 0
  %b = insertvalue { i32, i32 } %a, i32 %y, 1
  %first = extractvalue { i32, i32 } %b, 0
  %c = insertvalue { i32, i32 } %b, i32 %y, 0
  %d = insertvalue { i32, i32 } %c, i32 %first, 1
  %left = extractvalue { i32, i32 } %d, 0
  %right = extractvalue { i32, i32 } %d, 1
  %left.s = shl i32 %left, 16
  %all = or i32 %left.s, %right
  ret i32 %all
}

; A function that has the name of one of the translator's own.
define internal i64 @load_64(i64 %x) {
  ret i64 %x
}

; A parameter that nothing uses, and a result that nothing uses.
define i32 @ndef_unused(i32 %x, i32 %y) {
  %none = call i64 @load_64(i64 3)
  %idle = add i32 %y, 1
  %three = call i64 @load_64(i64 4)
  %sum = trunc i64 %three to i32
  ret i32 %sum
}

; Two values change places, and nothing else is between them.
define i32 @ndef_two(i32 %a, i32 %b, i32 %steps) {
entry:
  br label %step
step:
  %left = phi i32 [ %steps, %entry ], [ %less, %step ]
  %x = phi i32 [ %a, %entry ], [ %y, %step ]
  %y = phi i32 [ %b, %entry ], [ %x, %step ]
  %less = add i32 %left, -1
  %is.last = icmp ult i32 %left, 2
  br i1 %is.last, label %end, label %step
end:
  %both = sub i32 %x, %y
  ret i32 %both
}
