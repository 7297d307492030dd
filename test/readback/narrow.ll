; What becomes of numbers that are made pointers. by_hand.py says how each function is used.

@word = internal constant [6 x i8] c"usage:", align 1

; 8 octets of a text, carried as a pointer.
define void @lost_directly(ptr %from, ptr %to) {
  %text = load i64, ptr %from, align 1
  %carried = inttoptr i64 %text to ptr
  %stored = ptrtoint ptr %carried to i64
  store i64 %stored, ptr %to, align 1
  ret void
}

define void @lost_by_a_phi(ptr %from, ptr %to) {
entry:
  %text = load i64, ptr %from, align 1
  %carried = inttoptr i64 %text to ptr
  %is.zero = icmp eq i64 %text, 0
  br i1 %is.zero, label %zero, label %end
zero:
  br label %end
end:
  %either = phi ptr [ %from, %zero ], [ %carried, %entry ]
  %frozen = freeze ptr %either
  %stored = ptrtoaddr ptr %frozen to i64
  store i64 %stored, ptr %to, align 1
  ret void
}

define void @lost_by_a_select(ptr %from, ptr %to, i1 %which) {
  %text = load i64, ptr %from, align 1
  %carried = inttoptr i64 %text to ptr
  %either = select i1 %which, ptr %carried, ptr %from
  %stored = ptrtoint ptr %either to i64
  store i64 %stored, ptr %to, align 1
  ret void
}

define void @lost_by_a_struct(ptr %from, ptr %to) {
  %text = load i64, ptr %from, align 1
  %carried = inttoptr i64 %text to ptr
  %whole = insertvalue { i64, ptr } zeroinitializer, ptr %carried, 1
  %part = extractvalue { i64, ptr } %whole, 1
  %stored = ptrtoint ptr %part to i64
  store i64 %stored, ptr %to, align 1
  ret void
}

define void @lost_by_a_store(ptr %from, ptr %to) {
  %text = load i64, ptr %from, align 1
  %carried = inttoptr i64 %text to ptr
  store ptr %carried, ptr %to, align 1
  ret void
}

define i1 @lost_by_a_comparison(ptr %from) {
  %text = load i64, ptr %from, align 1
  %carried = inttoptr i64 %text to ptr
  %is.zero = icmp eq ptr null, %carried
  ret i1 %is.zero
}

; A number that leads to memory, and one that is passed on.
define void @kept(ptr %from) {
  %loaded = load i64, ptr %from, align 1
  %at = inttoptr i64 %loaded to ptr
  call void @kept(ptr %at)
  %next = getelementptr i8, ptr %at, i64 1
  store i8 1, ptr %next, align 1
  ret void
}

; What retarget.py makes of numbers that are made pointers, and then numbers again.
define void @lost_before(ptr %from, ptr %to, i1 %which) {
entry:
  %text = load i64, ptr %from, align 1
  %carried = inttoptr i64 %text to ptr
  %direct = ptrtoint ptr %carried to i64
  store i64 %direct, ptr %to, align 1
  %next = getelementptr i8, ptr %from, i64 1
  %plain = ptrtoint ptr %next to i64
  store i64 %plain, ptr %to, align 1
  %either = select i1 %which, ptr @word, ptr %carried
  %third = select i1 %which, ptr %carried, ptr %next
  br label %again
again:
  %4 = phi ptr [ %either, %entry ], [ %frozen, %again ]
  %5 = phi ptr [ null, %entry ], [ %4, %again ]
  %6 = select i1 %which, ptr %to, ptr %5
  %stored = ptrtoint ptr %4 to i64
  store i64 %stored, ptr %to, align 1
  %stored.2 = ptrtoaddr ptr %6 to i64
  store i64 %stored.2, ptr %to, align 1
  %frozen = freeze ptr %third
  br i1 %which, label %again, label %end
end:
  store i8 1, ptr %5, align 1
  ret void
}

define void @kept_after(ptr %from, ptr %to, i1 %which) {
entry:
  %number.to = ptrtoint ptr %to to i64
  %text = load i64, ptr %from, align 1
  %carried = inttoptr i64 %text to ptr
  %direct = freeze i64 %text
  store i64 %direct, ptr %to, align 1
  %next = getelementptr i8, ptr %from, i64 1
  %number.next = ptrtoint ptr %next to i64
  %plain = ptrtoint ptr %next to i64
  store i64 %plain, ptr %to, align 1
  %either = select i1 %which, ptr @word, ptr %carried
  %number.either = select i1 %which, i64 ptrtoint (ptr @word to i64), i64 %text
  %third = select i1 %which, ptr %carried, ptr %next
  %number.third = select i1 %which, i64 %text, i64 %number.next
  br label %again
again:
  %4 = phi ptr [ %either, %entry ], [ %frozen, %again ]
  %number.4 = phi i64 [ %number.either, %entry ], [ %number.frozen, %again ]
  %5 = phi ptr [ null, %entry ], [ %4, %again ]
  %number.5 = phi i64 [ 0, %entry ], [ %number.4, %again ]
  %6 = select i1 %which, ptr %to, ptr %5
  %number.6 = select i1 %which, i64 %number.to, i64 %number.5
  %stored = freeze i64 %number.4
  store i64 %stored, ptr %to, align 1
  %stored.2 = freeze i64 %number.6
  store i64 %stored.2, ptr %to, align 1
  %frozen = freeze ptr %third
  %number.frozen = freeze i64 %number.third
  br i1 %which, label %again, label %end
end:
  store i8 1, ptr %5, align 1
  ret void
}
