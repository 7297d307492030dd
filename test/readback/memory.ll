; Memory: the order of loads and stores, copies that overlap, and addresses. by_hand.py says how it is used.

@names = internal constant <{ ptr, [8 x i8], ptr, [8 x i8] }> <{ ptr @word, [8 x i8] c"\06\00\00\00\00\00\00\00", ptr getelementptr (i8, ptr @even, i64 2), [8 x i8] c"\02\00\00\00\00\00\00\00" }>, align 8
@word = internal constant [6 x i8] c"ab\00\22\\\FF", align 1
@even = internal constant [4 x i8] c"wxyz", align 8
@counts = internal constant [3 x i32] [i32 7, i32 -1, i32 65536], align 4

declare void @llvm.memcpy.p0.p0.i64(ptr noalias, ptr noalias readonly, i64, i1 immarg)
declare void @llvm.memmove.p0.p0.i64(ptr, ptr readonly, i64, i1 immarg)
declare void @llvm.memset.p0.i64(ptr, i8, i64, i1 immarg)
declare void @llvm.lifetime.start.p0(ptr)
declare void @llvm.assume(i1)

; Two bytes change places: each is loaded before the other is stored.
define void @ndef_swap(ptr %a, ptr %b) {
  %x = load i8, ptr %a, align 1
  %y = load i8, ptr %b, align 1
  store i8 %y, ptr %a, align 1
  store i8 %x, ptr %b, align 1
  ret void
}

define internal void @clear(ptr %at) {
  store i32 0, ptr %at, align 1
  ret void
}

; What was loaded before a store, a copy, a fill and a call, and is used after them.
define i32 @ndef_before(ptr %at, ptr %with) {
  %one = load i8, ptr %at, align 1
  store i8 9, ptr %at, align 1
  %one.z = zext i8 %one to i32
  %two = load i16, ptr %at, align 1
  call void @llvm.memcpy.p0.p0.i64(ptr align 1 %at, ptr align 1 %with, i64 4, i1 false)
  %two.z = zext i16 %two to i32
  %two.s = shl i32 %two.z, 8
  %sum = add i32 %one.z, %two.s
  %three = load i32, ptr %at, align 1
  call void @llvm.memset.p0.i64(ptr align 1 %at, i8 1, i64 4, i1 false)
  %sum.2 = add i32 %sum, %three
  %four = load i32, ptr %at, align 1
  call void @clear(ptr %at)
  %sum.3 = add i32 %sum.2, %four
  %five = load i32, ptr %at, align 1
  %sum.4 = add i32 %sum.3, %five
  ret i32 %sum.4
}

; A sum of what was loaded, which is used after a store: the sum may move over the store, but not the load.
define i32 @ndef_sum(ptr %at) {
  %old = load i32, ptr %at, align 1
  %sum = add i32 %old, 5
  store i32 100, ptr %at, align 1
  %twice = mul i32 %sum, 2
  ret i32 %twice
}

; The same, where the load is a part of what leads to another block.
define i32 @ndef_led(ptr %at) {
entry:
  %old = load i8, ptr %at, align 1
  %next = add i8 %old, 1
  store i8 %next, ptr %at, align 1
  %is.zero = icmp eq i8 %old, 0
  br i1 %is.zero, label %zero, label %other
zero:
  %seen = load i8, ptr %at, align 1
  store i8 77, ptr %at, align 1
  br label %end
other:
  br label %end
end:
  %value = phi i8 [ %seen, %zero ], [ %old, %other ]
  %value.z = zext i8 %value to i32
  ret i32 %value.z
}

; Bytes move by one place, up and down, by numbers of bytes that are known and that aren't.
define void @ndef_moves(ptr %bytes, i64 %count) {
  %up = getelementptr inbounds i8, ptr %bytes, i64 1
  call void @llvm.memmove.p0.p0.i64(ptr align 1 %up, ptr align 1 %bytes, i64 %count, i1 false)
  %far = getelementptr inbounds i8, ptr %bytes, i64 40
  %further = getelementptr inbounds i8, ptr %bytes, i64 41
  call void @llvm.memmove.p0.p0.i64(ptr align 1 %far, ptr align 1 %further, i64 %count, i1 false)
  %known = getelementptr inbounds i8, ptr %bytes, i64 80
  %after = getelementptr inbounds i8, ptr %bytes, i64 83
  call void @llvm.memmove.p0.p0.i64(ptr align 1 %after, ptr align 1 %known, i64 30, i1 false)
  %down = getelementptr inbounds i8, ptr %bytes, i64 120
  %from = getelementptr inbounds i8, ptr %bytes, i64 123
  call void @llvm.memmove.p0.p0.i64(ptr align 1 %down, ptr align 1 %from, i64 30, i1 false)
  ret void
}

; No bytes are copied, moved or set: the addresses may be anything.
define i32 @ndef_none(ptr %to, ptr %from, i64 %count) {
  call void @llvm.memcpy.p0.p0.i64(ptr %to, ptr %from, i64 %count, i1 false)
  call void @llvm.memmove.p0.p0.i64(ptr %to, ptr %from, i64 %count, i1 false)
  call void @llvm.memset.p0.i64(ptr %to, i8 1, i64 %count, i1 false)
  call void @llvm.memcpy.p0.p0.i64(ptr null, ptr %from, i64 0, i1 false)
  ret i32 5
}

; A fill takes the octet and the length that it is given, and a copy from another place.
define void @ndef_fill(ptr %to, i8 %octet, i64 %count, ptr %from) {
  call void @llvm.memset.p0.i64(ptr %to, i8 %octet, i64 %count, i1 false)
  %rest = getelementptr inbounds i8, ptr %to, i64 %count
  call void @llvm.memcpy.p0.p0.i64(ptr %rest, ptr %from, i64 %count, i1 false)
  ret void
}

; Numbers of 3 and 6 bytes: a store leaves the bytes beside it alone.
define i32 @ndef_parts(ptr %at, i32 %x) {
  %three = trunc i32 %x to i24
  %place = getelementptr inbounds i8, ptr %at, i64 1
  store i24 %three, ptr %place, align 1
  %loaded = load i48, ptr %at, align 1
  %there = getelementptr inbounds i8, ptr %at, i64 9
  store i48 %loaded, ptr %there, align 1
  %again = load i24, ptr %there, align 1
  %again.z = zext i24 %again to i32
  ret i32 %again.z
}

; A number of 3 bytes, after which there may be no memory.
define i32 @ndef_last(ptr %at) {
  %x = load i24, ptr %at, align 1
  %x.z = zext i24 %x to i32
  ret i32 %x.z
}

; Numbers at places that aren't multiples of their size.
define i32 @ndef_unaligned(ptr %at) {
  %one = getelementptr inbounds i8, ptr %at, i64 1
  %x = load i64, ptr %one, align 1
  %x.s = lshr i64 %x, 24
  %x.t = trunc i64 %x.s to i32
  %three = getelementptr inbounds i8, ptr %at, i64 3
  store i32 %x.t, ptr %three, align 1
  %y = load i16, ptr %three, align 1
  %y.z = zext i16 %y to i32
  ret i32 %y.z
}

; Elements of numbers, arrays and structs, counted by numbers of 64, 32 and 8 bits: those of fewer bits have a sign.
define i32 @ndef_elements(ptr %at, i64 %i64, i32 %i32, i8 %i8) {
  %a = getelementptr inbounds i16, ptr %at, i64 %i64
  %b = getelementptr inbounds [3 x i8], ptr %a, i32 %i32
  %c = getelementptr { i8, i64, i16 }, ptr %b, i8 %i8
  %d = getelementptr i8, ptr %c, i64 -2
  %e = getelementptr inbounds { i8, i16 }, ptr %d, i64 1
  %at.n = ptrtoint ptr %at to i64
  %e.n = ptrtoint ptr %e to i64
  %apart = sub i64 %e.n, %at.n
  %apart.t = trunc i64 %apart to i32
  ret i32 %apart.t
}

; An address that goes round all memory and comes back.
define i32 @ndef_round(ptr %at, i64 %by) {
  %far = getelementptr i8, ptr %at, i64 %by
  %less = sub i64 1, %by
  %near = getelementptr i8, ptr %far, i64 %less
  %x = load i8, ptr %near, align 1
  %x.z = zext i8 %x to i32
  ret i32 %x.z
}

; A constant's bytes, by an address with a number after it, and by addresses that lie in another constant.
define void @ndef_constants(i64 %i, ptr %to) {
  %place = getelementptr inbounds i8, ptr @word, i64 %i
  %byte = load i8, ptr %place, align 1
  store i8 %byte, ptr %to, align 1
  %last = load i8, ptr getelementptr inbounds (i8, ptr @even, i64 3), align 1
  %to.1 = getelementptr inbounds i8, ptr %to, i64 1
  store i8 %last, ptr %to.1, align 1
  %loaded.name = load i64, ptr getelementptr inbounds (i8, ptr @names, i64 16), align 8
  %name = inttoptr i64 %loaded.name to ptr
  %letter = load i8, ptr %name, align 1
  %to.2 = getelementptr inbounds i8, ptr %to, i64 2
  store i8 %letter, ptr %to.2, align 1
  %length = load i64, ptr getelementptr inbounds (i8, ptr @names, i64 24), align 8
  %length.t = trunc i64 %length to i8
  %to.3 = getelementptr inbounds i8, ptr %to, i64 3
  store i8 %length.t, ptr %to.3, align 1
  %many = load i32, ptr getelementptr inbounds (i8, ptr @counts, i64 4), align 4
  %to.4 = getelementptr inbounds i8, ptr %to, i64 4
  store i32 %many, ptr %to.4, align 1
  %loaded.first = load i64, ptr @names, align 8
  %first = inttoptr i64 %loaded.first to ptr
  %second = getelementptr inbounds i8, ptr %first, i64 1
  %b = load i8, ptr %second, align 1
  %to.8 = getelementptr inbounds i8, ptr %to, i64 8
  store i8 %b, ptr %to.8, align 1
  ret void
}

; Addresses of constants as numbers: in a sum, a comparison, a store and a phi; and a number as an address.
define i32 @ndef_addresses(ptr %to, i32 %x) {
entry:
  store i64 ptrtoint (ptr @word to i64), ptr %to, align 8
  %loaded.stored = load i64, ptr %to, align 8
  %is.word = icmp eq i64 %loaded.stored, ptrtoint (ptr @word to i64)
  %is.word.z = zext i1 %is.word to i32
  %is.zero = icmp eq i32 %x, 0
  br i1 %is.zero, label %zero, label %end
zero:
  br label %end
end:
  %number = phi i64 [ ptrtoaddr (ptr @even to i64), %entry ], [ ptrtoint (ptr @word to i64), %zero ]
  %moved = add i64 %number, 1
  %y = inttoptr i64 %moved to ptr
  %letter = load i8, ptr %y, align 1
  %letter.z = zext i8 %letter to i32
  %letter.s = shl i32 %letter.z, 1
  %first = or i32 %letter.s, %is.word.z
  %is.one = icmp eq ptr %to, inttoptr (i64 4096 to ptr)
  %is.one.z = select i1 %is.one, i32 65536, i32 0
  %all = or i32 %first, %is.one.z
  %is.null = icmp eq ptr %to, null
  %null = select i1 %is.null, i32 131072, i32 0
  %all.2 = or i32 %all, %null
  ret i32 %all.2
}

; Pointers in memory that the call has for itself: a pointer takes 8 bytes.
define i32 @ndef_slot(ptr %a, ptr %b) {
  %slot = alloca [24 x i8], align 8
  %small = alloca i64, align 8
  call void @llvm.lifetime.start.p0(ptr %slot)
  %stored.1 = ptrtoint ptr %a to i64
  store i64 %stored.1, ptr %slot, align 8
  %second = getelementptr inbounds i8, ptr %slot, i64 8
  %stored.2 = ptrtoint ptr %b to i64
  store i64 %stored.2, ptr %second, align 8
  %third = getelementptr inbounds i8, ptr %slot, i64 16
  %stored.3 = ptrtoint ptr %slot to i64
  store i64 %stored.3, ptr %third, align 8
  %loaded.self = load i64, ptr %third, align 8
  %self = inttoptr i64 %loaded.self to ptr
  %is.self = icmp eq ptr %self, %slot
  call void @llvm.assume(i1 %is.self)
  %place = getelementptr inbounds i8, ptr %self, i64 8
  %loaded.found = load i64, ptr %place, align 8
  %found = inttoptr i64 %loaded.found to ptr
  %letter = load i8, ptr %found, align 1
  %letter.w = zext i8 %letter to i64
  store i64 %letter.w, ptr %small, align 8
  %half = load i32, ptr %small, align 4
  %is.below = icmp ult ptr %a, %b
  %below = select i1 %is.below, i32 256, i32 0
  %all = or i32 %half, %below
  ret i32 %all
}

; Numbers of 20 bits take 3 bytes.
define i32 @ndef_odd(ptr %at) {
  %x = load i20, ptr %at, align 1
  %place = getelementptr i8, ptr %at, i64 4
  store i20 %x, ptr %place, align 1
  %x.z = zext i20 %x to i32
  ret i32 %x.z
}
