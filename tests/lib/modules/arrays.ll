; Arrays of functions. What is called narrow or wide is as in sizes.ll. writes.py takes the writes to what is called gone, because nobody
; reads these bytes, and no others.

; What is handed gets a number of 64 bits; and of what is handed the low 4 bytes are read.
define internal fastcc void @"arrays::put"(ptr noundef %a0, i64 noundef %a1) unnamed_addr #0 {
start:
  store i64 %a1, ptr %a0, align 8
  ret void
}

define internal fastcc i64 @"arrays::low"(ptr noundef %a0) unnamed_addr #0 {
start:
  %x = load i32, ptr %a0, align 8
  %x.wide = zext i32 %x to i64
  ret i64 %x.wide
}

; A size and a number of 64 bits; a copy of the size; two halves; a byte at any place; a sum that may be too large; what C and a call
; wrote; and a size of which the high half is read.
define i64 @dfu_arrays_held(ptr %a0, i64 %a1, i64 %a2) #0 {
start:
  %few = alloca [16 x i8], align 8
  %many = alloca [16 x i8], align 8
  %both = alloca [8 x i8], align 8
  %any = alloca [8 x i8], align 8
  %given = alloca [8 x i8], align 8
  %halves = alloca [8 x i8], align 8
  store i64 %a1, ptr %few, align 8
  %few.8 = getelementptr i8, ptr %few, i64 8
  store i64 4096, ptr %few.8, align 8
  %narrow.first = load i64, ptr %few, align 8
  %narrow.second = load i64, ptr %few.8, align 8
  store i64 %a2, ptr %many, align 8
  %many.8 = getelementptr i8, ptr %many, i64 8
  call void @llvm.memcpy.p0.p0.i64(ptr %many.8, ptr %few.8, i64 8, i1 false)
  %wide.first = load i64, ptr %many, align 8
  %narrow.copied = load i64, ptr %many.8, align 8
  %half = trunc i64 %a1 to i32
  store i32 %half, ptr %both, align 8
  %both.4 = getelementptr i8, ptr %both, i64 4
  store i32 1, ptr %both.4, align 4
  %wide.both = load i64, ptr %both, align 8
  call void @llvm.memset.p0.i64(ptr %any, i8 0, i64 8, i1 false)
  %low = and i64 %a1, 7
  %any.low = getelementptr i8, ptr %any, i64 %low
  store i8 100, ptr %any.low, align 1
  %wide.any = load i64, ptr %any, align 8
  %wide.sum = add i64 %narrow.first, %narrow.second
  %narrow.sum = add i64 %narrow.copied, %narrow.second
  %wide.c = load i64, ptr %a0, align 1
  call fastcc void @"arrays::put"(ptr noundef %given, i64 noundef %a2)
  %wide.given = load i64, ptr %given, align 8
  store i64 %a1, ptr %halves, align 8
  %halves.4 = getelementptr i8, ptr %halves, i64 4
  %high = load i32, ptr %halves.4, align 4
  %c0 = icmp ugt i64 %narrow.first, %a2
  %c1 = icmp ugt i64 %narrow.copied, %a2
  %c2 = icmp ugt i64 %narrow.sum, %a1
  %c3 = icmp ugt i64 %wide.first, %a1
  %c4 = icmp ugt i64 %wide.both, %a2
  %c5 = icmp ugt i64 %wide.any, %a2
  %c6 = icmp ugt i64 %wide.sum, %a2
  %c7 = icmp ugt i64 %wide.c, %a2
  %c8 = icmp ugt i64 %wide.given, %a1
  %c9 = icmp ne i32 %high, 0
  %s0 = zext i1 %c0 to i64
  %r0 = shl i64 %s0, 1
  %s1 = zext i1 %c1 to i64
  %t1 = or i64 %r0, %s1
  %r1 = shl i64 %t1, 1
  %s2 = zext i1 %c2 to i64
  %t2 = or i64 %r1, %s2
  %r2 = shl i64 %t2, 1
  %s3 = zext i1 %c3 to i64
  %t3 = or i64 %r2, %s3
  %r3 = shl i64 %t3, 1
  %s4 = zext i1 %c4 to i64
  %t4 = or i64 %r3, %s4
  %r4 = shl i64 %t4, 1
  %s5 = zext i1 %c5 to i64
  %t5 = or i64 %r4, %s5
  %r5 = shl i64 %t5, 1
  %s6 = zext i1 %c6 to i64
  %t6 = or i64 %r5, %s6
  %r6 = shl i64 %t6, 1
  %s7 = zext i1 %c7 to i64
  %t7 = or i64 %r6, %s7
  %r7 = shl i64 %t7, 1
  %s8 = zext i1 %c8 to i64
  %t8 = or i64 %r7, %s8
  %r8 = shl i64 %t8, 1
  %s9 = zext i1 %c9 to i64
  %t9 = or i64 %r8, %s9
  ret i64 %t9
}

; An array that nobody reads; bytes between two that are read, also of a copy; a copy that nobody reads; the half that a call does not
; read; a place of C; and a byte that is read at any place.
define i64 @dfu_arrays_writes(ptr %a0, i64 %a1) #0 {
start:
  %gone.never = alloca [8 x i8], align 8
  %kept.record = alloca [16 x i8], align 8
  %kept.copy = alloca [16 x i8], align 8
  %gone.copy = alloca [16 x i8], align 8
  %kept.low = alloca [8 x i8], align 8
  %kept.any = alloca [8 x i8], align 8
  store i64 %a1, ptr %gone.never, align 8
  store i8 3, ptr %kept.record, align 8
  %gone.1 = getelementptr i8, ptr %kept.record, i64 1
  call void @llvm.memset.p0.i64(ptr %gone.1, i8 0, i64 7, i1 false)
  %kept.8 = getelementptr i8, ptr %kept.record, i64 8
  store i64 %a1, ptr %kept.8, align 8
  call void @llvm.memcpy.p0.p0.i64(ptr %kept.copy, ptr %kept.record, i64 16, i1 false)
  call void @llvm.memcpy.p0.p0.i64(ptr %gone.copy, ptr %kept.record, i64 16, i1 false)
  %x0.n = load i8, ptr %kept.copy, align 8
  %copy.8 = getelementptr i8, ptr %kept.copy, i64 8
  %x1 = load i64, ptr %copy.8, align 8
  store i32 20, ptr %kept.low, align 8
  %gone.4 = getelementptr i8, ptr %kept.low, i64 4
  store i32 9, ptr %gone.4, align 4
  %x2 = call fastcc i64 @"arrays::low"(ptr noundef %kept.low)
  store i64 6, ptr %a0, align 1
  call void @llvm.memset.p0.i64(ptr %kept.any, i8 2, i64 8, i1 false)
  %low = and i64 %a1, 7
  %any.low = getelementptr i8, ptr %kept.any, i64 %low
  %x3.n = load i8, ptr %any.low, align 1
  %x0 = zext i8 %x0.n to i64
  %x3 = zext i8 %x3.n to i64
  %y0 = add i64 %x0, %x1
  %y1 = add i64 %y0, %x2
  %y2 = add i64 %y1, %x3
  ret i64 %y2
}

; What is written and read by who has the place as a number: a write to it stays, and it may hold any number.
define i64 @dfu_arrays_lost(i64 %a0, i64 %a1) #0 {
start:
  %kept.lost = alloca [8 x i8], align 8
  %kept.read = alloca [8 x i8], align 8
  %kept.number = alloca [16 x i8], align 8
  store i64 5, ptr %kept.lost, align 8
  store i64 %a0, ptr %kept.read, align 8
  %place = ptrtoint ptr %kept.lost to i64
  store i64 %place, ptr %kept.number, align 8
  %read.place = ptrtoint ptr %kept.read to i64
  %number.8 = getelementptr i8, ptr %kept.number, i64 8
  store i64 %read.place, ptr %number.8, align 8
  %again = load i64, ptr %kept.number, align 8
  %p = inttoptr i64 %again to ptr
  store i64 %a1, ptr %p, align 8
  %wide.lost = load i64, ptr %kept.lost, align 8
  %read.again = load i64, ptr %number.8, align 8
  %q = inttoptr i64 %read.again to ptr
  %wide.read = load i64, ptr %q, align 8
  %c = icmp ugt i64 %wide.lost, %wide.read
  %r = zext i1 %c to i64
  ret i64 %r
}

; A phi that has the number of each case is called known. One has another number in a case, one a case of two numbers, and one a way that
; no case leads to.
define i64 @dfu_arrays_cases(i32 %a0, i64 %a1) #0 {
start:
  switch i32 %a0, label %other.1 [
    i32 0, label %zero.2
    i32 1, label %one.3
    i32 7, label %seven.4
    i32 9, label %few.5
    i32 10, label %few.5
  ]

zero.2:                                           ; preds = %start
  br label %join.8

one.3:                                            ; preds = %start
  %is.odd = trunc i64 %a1 to i1
  br i1 %is.odd, label %odd.6, label %even.7

seven.4:                                          ; preds = %start
  br label %join.8

few.5:                                            ; preds = %start
  br label %join.9

odd.6:                                            ; preds = %one.3
  br label %join.8

even.7:                                           ; preds = %one.3
  br label %join.8

join.8:                                           ; preds = %even.7, %odd.6, %seven.4, %zero.2
  %known.byte = phi i8 [ 0, %zero.2 ], [ 7, %seven.4 ], [ 1, %odd.6 ], [ 1, %even.7 ]
  %known.same = phi i32 [ 0, %zero.2 ], [ 7, %seven.4 ], [ 1, %odd.6 ], [ 1, %even.7 ]
  %known.wide = phi i64 [ 0, %zero.2 ], [ 7, %seven.4 ], [ 1, %odd.6 ], [ 1, %even.7 ]
  %is.else = phi i8 [ 0, %zero.2 ], [ 7, %seven.4 ], [ 2, %odd.6 ], [ 1, %even.7 ]
  %b = zext i8 %known.byte to i64
  %s = zext i32 %known.same to i64
  %e = zext i8 %is.else to i64
  %u = add i64 %b, %s
  %v = add i64 %u, %known.wide
  %w = add i64 %v, %e
  br label %join.9

other.1:                                          ; preds = %start
  br label %join.9

join.9:                                           ; preds = %other.1, %join.8, %few.5
  %is.two = phi i64 [ 9, %few.5 ], [ %w, %join.8 ], [ 40, %other.1 ]
  ret i64 %is.two
}
